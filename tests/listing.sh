# What `./branmuslin list` prints for the samples, and at the limits of a recording's length.
for sample in samples/*.bin; do
    text=${sample%.bin}.txt
    lists_sample() {
        ./branmuslin list "$sample" >"$work/listed" && cmp "$work/listed" "$text" &&
            "$second" list <"$sample" >"$work/listed" && cmp "$work/listed" "$text"
    }
    check "list: $sample" lists_sample
done

# octets_of_e0 N: a recording of N idle Encapsulation Packets of one octet.
octets_of_e0() { head -c "$1" /dev/zero | tr '\0' '\340'; }

longest_is_listed_whole() {
    octets_of_e0 65536 | ./branmuslin list >"$work/listed" && octets_of_e0 65536 | "$second" list | cmp - "$work/listed" &&
        [ "$(wc -l <"$work/listed")" -eq 65537 ] && [ "$(tail -n 1 "$work/listed")" = 'end 65536 65536' ]
}

one_more_is_too_long() { [ "$(octets_of_e0 65537 | ./branmuslin list)" = 'too long' ]; }

far_more_is_too_long() { [ "$(octets_of_e0 3000000 | ./branmuslin list)" = 'too long' ]; }

nothing_lists_its_end() { [ "$(./branmuslin list </dev/null)" = 'end 0 0' ]; }

# The program's buffer is as long as the law that says that every text fits.
buffer_is_as_proved() {
    local proved
    grep -q '^pub room : .* ≤ most_listed$' crates/listing/proofs/Room.antt &&
        proved=$(sed -n 's/^most_listed = \([0-9]*\)$/\1/p' crates/listing/proofs/Room.antt) && [ -n "$proved" ] &&
        grep "^pub const MOST_LISTED: usize = $proved;$" crates/listing/src/lib.rt &&
        [ "$(grep -c "^    let mut text: \[u8; MOST_LISTED\] = Default::default();$" crates/list/src/main.rt)" -eq 1 ]
}

# A pipe hands over its octets in pieces.
pieces_are_one_recording() {
    { head -c 5 samples/every.bin && sleep 0.2 && tail -c +6 samples/every.bin; } | ./branmuslin list | cmp - samples/every.txt
}

check 'list: 65,536 octets of E0 are listed whole' longest_is_listed_whole
check 'list: 65,537 octets are too long' one_more_is_too_long
check 'list: three million octets are too long' far_more_is_too_long
check 'list: no octets' nothing_lists_its_end
check 'list: its buffer is as long as is proved to suffice' buffer_is_as_proved
check 'list: a recording that comes in pieces' pieces_are_one_recording
