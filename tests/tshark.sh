# Space Packets that the library wrote, seen by Wireshark's dissector: every field and the data must be as they were given to the writer.

# dissect FILE: a line for each frame, with the columns that tests/tshark/written.c prints. Dissectors that claim some APIDs are turned off, the
# user's own settings are left out, and versions that say True and False give the same lines as those that say 1 and 0.
dissect() {
    local claimed name names=(-e frame.len)
    mkdir -p "$work/wireshark" && export WIRESHARK_CONFIG_DIR="$work/wireshark" || return
    mapfile -t claimed < <(tshark -G decodes | awk -F'\t' '$1 == "ccsds.apid" { print "--disable-protocol=" $3 }')
    for name in apid type secheader seqflag seqnum length user_data; do
        names+=(-e "ccsds.$name")
    done
    tshark -r "$1" "${claimed[@]}" -o 'uat:user_dlts:"User 0 (DLT=147)","ccsds","0","","0",""' -T fields "${names[@]}" >"$work/fields" &&
        sed $'s/\tTrue\t/\t1\t/; s/\tFalse\t/\t0\t/' "$work/fields"
}

written_builds() {
    make && "${CC:-cc}" -std=c11 -Wall -Wextra -Werror -Iinclude tests/tshark/written.c tests/c/check.c target/lib/libbranmuslin.a \
        -o "$work/written"
}

dissected_as_given() {
    "$work/written" "$work/pcap" >"$work/given" && [ -s "$work/given" ] && (dissect "$work/pcap") >"$work/dissected" || return
    diff "$work/given" "$work/dissected" >"$work/differing" || { cut -c 1-140 "$work/differing" && return 1; }
}

if command -v tshark >/dev/null; then
    check 'tshark: the program that writes packets builds' written_builds
    check 'tshark: what the library wrote is dissected as it was given' dissected_as_given
else
    echo 'skip  tshark is not installed: what the library wrote is not dissected'
fi
