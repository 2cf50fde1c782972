# The command `./branmuslin`: each wrong call gets one clear line on standard error, nothing on standard output, and a status that isn't 0.
refuses() {
    local line=$1 status
    shift
    "$@" >"$work/out" 2>"$work/err" </dev/null
    status=$?
    cat "$work/err"
    [ "$status" -ne 0 ] && [ ! -s "$work/out" ] && [ "$(wc -l <"$work/err")" -eq 1 ] && grep -q -- "$line" "$work/err"
}

helps() {
    ./branmuslin help >"$work/out" && grep -q 'list \[FILE\]' "$work/out" && grep -q 'replay \[FILE\]' "$work/out" &&
        grep -qF 'frames [--packets OUT] [FILE]' "$work/out" &&
        grep -qF 'credit [--frames] --station N --apid N --secondary N --share N --cap N FILE' "$work/out" && ./branmuslin list --help | cmp - "$work/out" &&
        ./branmuslin replay -h | cmp - "$work/out" && ./branmuslin credit -h | cmp - "$work/out" && ./branmuslin credit --cap 1 --help | cmp - "$work/out" &&
        ./branmuslin frames -h | cmp - "$work/out" && ./branmuslin frames --packets "$work/unwritten" --help | cmp - "$work/out" && [ ! -e "$work/unwritten" ]
}

lists_sample() { ./branmuslin list samples/paper.bin | cmp - samples/paper.txt; }

replays_sample() {
    ./branmuslin replay samples/lanes.run >"$work/out" && cmp "$work/out" samples/lanes.txt &&
        ./branmuslin replay <samples/lanes.run >"$work/out" && cmp "$work/out" samples/lanes.txt
}

frames_sample() {
    ./branmuslin frames samples/pass.frames >"$work/out" && cmp "$work/out" samples/pass.txt &&
        ./branmuslin frames <samples/pass.frames >"$work/out" && cmp "$work/out" samples/pass.txt
}

# The text is the same with the packets; these are listed as any recording. What OUT had before is gone.
writes_packets() {
    cp samples/every.bin "$work/packets" && ./branmuslin frames --packets "$work/packets" samples/pass.frames | cmp - samples/pass.txt &&
        ./branmuslin list "$work/packets" | diff <(printf '%s\n' '0 encap 0 0 1 0' '1 space 42 3 5 18' '25 encap 2 0 2 3' '30 space 42 3 7 2' '38 encap 0 0 2 0' \
            '40 encap 0 0 1 0' '41 encap 0 0 1 0' '42 encap 0 0 1 0' 'end 43 8') - &&
        ./branmuslin frames --packets "$work/a name" <samples/pass.frames | cmp - samples/pass.txt && cmp "$work/packets" "$work/a name" &&
        (cd "$work" && "$OLDPWD/branmuslin" frames --packets -y -- "$OLDPWD/samples/pass.frames") | cmp - samples/pass.txt && cmp "$work/packets" "$work/-y"
}

# A file that is too long is not taken at all, also by its packets.
frames_too_long() {
    head -c 1048577 /dev/zero >"$work/long.frames" && ./branmuslin frames --packets "$work/packets" "$work/long.frames" >"$work/out" &&
        [ "$(cat "$work/out")" = 'too long' ] && [ -e "$work/packets" ] && [ ! -s "$work/packets" ]
}

# packets_fail TEXT OUT [FILE]: one line with the text is told on standard error, and the status is 1.
packets_fail() {
    local text=$1 status
    shift
    ./branmuslin frames --packets "$@" >"$work/out" 2>"$work/err" <samples/pass.frames
    status=$?
    cat "$work/err"
    [ "$status" -eq 1 ] && [ "$(wc -l <"$work/err")" -eq 1 ] && grep -qF -- "$text" "$work/err"
}

# A bad OUT is told before anything is made, and the frame file is never written over, by whatever name.
bad_packets() {
    cp samples/pass.frames "$work/pass.frames" && ln -sf pass.frames "$work/link" && packets_fail "this is a folder, not a file: $work" "$work" samples/pass.frames &&
        packets_fail "this file can't be written: $work/nowhere/out" "$work/nowhere/out" samples/pass.frames &&
        packets_fail "this file can't be written: $work/pass.frames/out" "$work/pass.frames/out" samples/pass.frames &&
        packets_fail 'the packets would overwrite the frame file: ' "$work/pass.frames" "$work/pass.frames" &&
        packets_fail 'the packets would overwrite the frame file: ' "$work/link" "$work/pass.frames" && cmp samples/pass.frames "$work/pass.frames" &&
        ! ./branmuslin frames --packets "$work/pass.frames" <"$work/pass.frames" >"$work/out" 2>&1 && cmp samples/pass.frames "$work/pass.frames" &&
        packets_fail "no such file: nowhere" "$work/unwritten" nowhere && [ ! -e "$work/unwritten" ] && packets_fail branmuslin: /dev/full
}

settings=(--station 7 --apid 42 --secondary 0 --share 1 --cap 2)

# credit_prints LINES ARGUMENT..
credit_prints() {
    local lines=$1
    shift
    ./branmuslin credit "$@" >"$work/out" && diff <(printf '%s\n' "$lines") "$work/out"
}

credits_samples() {
    credit_prints "8 refused 13 an Encapsulation Packet is sent to a lane
9 refused 13 an Encapsulation Packet is sent to a lane
14 refused 1 2 the octets end before the header or the packet does; the upload ends here, with octets left: 2
units 1 packets 1 missing 0 broken 0 repeats 0 refused 3" "${settings[@]}" samples/paper.bin &&
        ./branmuslin credit --cap 2 --share 1 --secondary 6 --apid 100 --station 65535 samples/every.bin >"$work/out" &&
        [ "$(tail -n 1 "$work/out")" = 'units 1 packets 1 missing 0 broken 0 repeats 0 refused 18' ]
}

# One command from a frame recording to the credit. --frames may stand anywhere before the file.
credits_frames() {
    local lines="0 refused 13 an Encapsulation Packet is sent to a lane
28 refused 13 an Encapsulation Packet is sent to a lane
103 refused 13 an Encapsulation Packet is sent to a lane
117 frame 5 refused 28 the first header pointer is an offset at or past the field's end
145 refused 13 an Encapsulation Packet is sent to a lane
145 refused 13 an Encapsulation Packet is sent to a lane
145 refused 13 an Encapsulation Packet is sent to a lane
units 2 packets 2 missing 1 broken 0 repeats 0 refused 7"
    credit_prints "$lines" --frames "${settings[@]}" samples/pass.frames && credit_prints "$lines" "${settings[@]}" --frames -- samples/pass.frames &&
        credit_prints "$lines" --station 7 --frames "${settings[@]:2}" samples/pass.frames
}

# Settings that the library refuses are told as it tells them.
credits_nothing() {
    credit_prints 'opening refused 22 the APID is over 2046, the secondary length over 63, the share over the cap, or the cap over 64' \
        "${settings[@]}" --cap 65 samples/paper.bin
}

# Also a name with a colon, and one that begins as an option does.
credits_odd_names() {
    local name
    for name in 'a name' a:b -x; do
        cp samples/paper.bin "$work/$name" && (cd "$work" && "$OLDPWD/branmuslin" credit "${settings[@]}" -- "$name") | grep '^units 1 packets 1 ' || return
    done
}

# Each setting that is missing, that is no number, and that is over its range.
credit_settings() {
    local i name word
    for i in 0 2 4 6 8; do
        name=${settings[i]} word=${settings[i]#--}
        refuses "credit needs $name N" ./branmuslin credit "${settings[@]:0:i}" "${settings[@]:i + 2}" samples/paper.bin &&
            refuses "$name needs a number after it" ./branmuslin credit "${settings[@]:0:i}" "$name" &&
            refuses "$name is a number, not 'x'" ./branmuslin credit "${settings[@]}" "$name" x samples/paper.bin &&
            refuses "$name is a number, not ''" ./branmuslin credit "${settings[@]}" "$name" '' samples/paper.bin &&
            refuses "$name is a number, not '1:2'" ./branmuslin credit "${settings[@]}" "$name" 1:2 samples/paper.bin &&
            refuses "${word^^} is a number from 0 to [0-9]*, not '70000'" ./branmuslin credit "${settings[@]}" "$name" 70000 samples/paper.bin || return
    done
}

# credit_status STATUS ARGUMENT..
credit_status() {
    local status=$1
    shift
    ./branmuslin credit "$@" >"$work/out" 2>"$work/err" </dev/null
    [ $? -eq "$status" ]
}

credit_statuses() {
    credit_status 0 "${settings[@]}" samples/paper.bin && credit_status 1 "${settings[@]}" nowhere && credit_status 2 "${settings[@]}" &&
        credit_status 2 "${settings[@]}" --cap 300 samples/paper.bin && credit_status 2 samples/paper.bin
}

credit_full_output() {
    ./branmuslin credit "${settings[@]}" samples/paper.bin >/dev/full 2>"$work/err"
    [ $? -eq 1 ] && [ "$(wc -l <"$work/err")" -eq 1 ] && grep 'standard output' "$work/err"
}

# copies NAME..: a copy of these in $work/copy, but of what rt keeps in the crates' out/, and a folder bin.
copies() {
    rm -rf "$work/copy" && mkdir -p "$work/copy/bin" && tar -cf "$work/copy.tar" --exclude='crates/*/out' "$@" && tar -xf "$work/copy.tar" -C "$work/copy"
}

# In a copy: with a toolchain that proves nothing one line follows that which says what goes on; with none, or no make, there is one line.
credit_unbuilt() {
    copies branmuslin Makefile crates crates.txt include examples samples &&
        ln -s "$(type -P false)" "$work/copy/bin/rt" || return
    PATH="$work/copy/bin:$PATH" "$work/copy/branmuslin" credit "${settings[@]}" samples/paper.bin >"$work/out" 2>"$work/err"
    [ $? -eq 1 ] && [ ! -s "$work/out" ] && [ "$(wc -l <"$work/err")" -eq 2 ] && grep "'intake' was not proved or built; see" "$work/err" &&
        refuses 'the command make is not installed' env PATH=/nowhere "$work/copy/branmuslin" credit "${settings[@]}" samples/paper.bin &&
        { [ -x /usr/bin/rt ] || [ -x /bin/rt ] || refuses toolchain env PATH=/usr/bin:/bin "$work/copy/branmuslin" credit "${settings[@]}" samples/paper.bin; }
}

credit_starts_at_once() { [ -z "$(./branmuslin credit "${settings[@]}" samples/paper.bin 2>&1 >/dev/null)" ]; }

runs_through_links() {
    ln -sf "$PWD/branmuslin" "$work/one" && ln -sf one "$work/two" && "$work/two" list samples/paper.bin | cmp - samples/paper.txt
}

odd_names() {
    cp samples/paper.bin "$work/a name" && cp samples/paper.bin "$work/-x" && ./branmuslin list "$work/a name" | cmp - samples/paper.txt &&
        (cd "$work" && "$OLDPWD/branmuslin" list -- -x) | cmp - samples/paper.txt
}

# full_output WORD, folder_as_input WORD: a text that can't be written, and an input that can't be read, are told.
full_output() {
    ./branmuslin "$1" samples/paper.bin >/dev/full 2>"$work/err"
    [ $? -eq 1 ] && [ "$(wc -l <"$work/err")" -eq 1 ] && grep 'standard output' "$work/err"
}

folder_as_input() {
    ./branmuslin "$1" <samples >"$work/out" 2>"$work/err"
    [ $? -eq 1 ] && [ ! -s "$work/out" ] && [ "$(wc -l <"$work/err")" -eq 1 ] && grep 'standard input' "$work/err"
}

first_line_only() { [ "$(./branmuslin list samples/every.bin | head -n 1)" = '0 space 42 3 16382 21' ]; }

# With a toolchain that proves nothing: one clear line after the one that says what goes on.
failed_build() {
    copies branmuslin crates crates.txt samples &&
        printf '#!/bin/sh\nexit 1\n' >"$work/copy/bin/rt" && chmod +x "$work/copy/bin/rt"
    PATH="$work/copy/bin:$PATH" "$work/copy/branmuslin" list samples/paper.bin >"$work/out" 2>"$work/err"
    [ $? -eq 1 ] && [ ! -s "$work/out" ] && [ "$(wc -l <"$work/err")" -eq 2 ] && grep 'was not proved or built' "$work/err"
}

runs_from_elsewhere() { (cd / && "$OLDPWD/branmuslin" list "$OLDPWD/samples/paper.bin") | cmp - samples/paper.txt; }

# A second run must not prove anything again.
starts_at_once() { ./branmuslin list samples/paper.bin >/dev/null && [ -z "$(./branmuslin list samples/paper.bin 2>&1 >/dev/null)" ]; }

# In a copy with nothing built and no rt on the path.
no_toolchain() {
    copies branmuslin crates crates.txt samples &&
        refuses 'toolchain' env PATH=/usr/bin:/bin "$work/copy/branmuslin" list "$work/copy/samples/paper.bin"
}

if [ -x /usr/bin/rt ] || [ -x /bin/rt ]; then
    echo 'note  rt stands in /usr/bin: a missing toolchain is not tried'
else
    check 'branmuslin: a missing toolchain' no_toolchain
fi
check 'branmuslin help' helps
# The first run of a word builds it, and says so in a line; so these come before what counts lines.
check 'branmuslin list: samples/paper.bin' lists_sample
check 'branmuslin replay: samples/lanes.run' replays_sample
check 'branmuslin frames: samples/pass.frames' frames_sample
check 'branmuslin credit: the samples' credits_samples
check 'branmuslin: no word' refuses 'which word' ./branmuslin
check 'branmuslin: an unknown word' refuses "unknown word 'lits'" ./branmuslin lits
for word in list replay frames; do
    check "branmuslin $word: an unknown option" refuses "unknown option '-x'" ./branmuslin "$word" -x
    check "branmuslin $word: a missing file" refuses 'no such file: nowhere' ./branmuslin "$word" nowhere
    check "branmuslin $word: a folder" refuses 'folder' ./branmuslin "$word" samples
    check "branmuslin $word: two files" refuses "$word takes one file, and was given 2" ./branmuslin "$word" samples/paper.bin samples/lanes.run
    check "branmuslin $word: an output that is full" full_output "$word"
    check "branmuslin $word: a folder as standard input" folder_as_input "$word"
done
check 'branmuslin frames: the packets' writes_packets
check 'branmuslin frames: a file that is too long' frames_too_long
check 'branmuslin frames: packets that cannot be written' bad_packets
check 'branmuslin frames: no file after --packets' refuses '--packets needs a file after it' ./branmuslin frames --packets
check 'branmuslin frames: an unknown option after --packets' refuses "unknown option '-x'" ./branmuslin frames --packets "$work/unwritten" -x
check 'branmuslin credit: a frame file' credits_frames
check 'branmuslin credit: settings that are missing or no numbers' credit_settings
check 'branmuslin credit: settings that the library refuses' credits_nothing
check 'branmuslin credit: an unknown option' refuses "unknown option '-x'" ./branmuslin credit "${settings[@]}" -x
check 'branmuslin credit: a missing file' refuses 'no such file: nowhere' ./branmuslin credit "${settings[@]}" nowhere
check 'branmuslin credit: a folder' refuses 'folder' ./branmuslin credit "${settings[@]}" samples
check 'branmuslin credit: no file' refuses 'credit takes one file, after the options, and was given 0' ./branmuslin credit "${settings[@]}"
check 'branmuslin credit: two files' refuses 'and was given 2' ./branmuslin credit "${settings[@]}" samples/paper.bin samples/every.bin
check 'branmuslin credit: odd file names' credits_odd_names
check 'branmuslin credit: its status' credit_statuses
check 'branmuslin credit: an output that is full' credit_full_output
check 'branmuslin credit: a build that fails, no toolchain, no make' credit_unbuilt
check 'branmuslin credit: later runs start at once' credit_starts_at_once
check 'branmuslin: from another folder' runs_from_elsewhere
check 'branmuslin: through links' runs_through_links
check 'branmuslin: odd file names' odd_names
check 'branmuslin: an output that closes early' first_line_only
check 'branmuslin: a build that fails' failed_build
check 'branmuslin: later runs start at once' starts_at_once
if command -v shellcheck >/dev/null; then
    check 'branmuslin: shellcheck' shellcheck -s sh branmuslin
else
    echo 'note  shellcheck is not installed: skipped'
fi
