# The example `intake`: a server's loop in C over the library. What it prints, the units and the records it writes, for uploads made here; its records
# are compared with the second program's. Compilers' flags are those of tests/library.sh.
uploads=$work/uploads
mkdir -p "$uploads/units"

builds_intake() {
    "$cc" -std=c99 -pedantic -Wconversion "${strict[@]}" -O2 -Iinclude examples/intake.c "$archive" -o "$work/intake-plain" &&
        "$cc" -std=c99 -pedantic -Wconversion "${strict[@]}" "${sanitized[@]}" -Iinclude examples/intake.c "$archive" -o "$work/intake" &&
        "$cc" -std=c99 "${strict[@]}" -O1 tests/intake/uploads.c -o "$work/make-uploads" &&
        "$cc" -std=c99 "${strict[@]}" -O1 tests/intake/frames.c -o "$work/make-frames" &&
        "$cc" -std=c99 "${strict[@]}" -Iinclude tests/intake/records.c "$archive" -o "$work/read-records"
}

# intake_prints LINES ARGUMENT..: it prints these lines and nothing else, and ends with 0.
intake_prints() {
    local lines=$1
    shift
    "$work/intake" "$@" >"$work/out" 2>"$work/err" && diff <(printf '%s' "$lines") "$work/out" && diff /dev/null "$work/err"
}

# intake_fails STATUS TEXT ARGUMENT..: it prints one line, on standard error, with the text.
intake_fails() {
    local status=$1 text=$2
    shift 2
    "$work/intake" "$@" >"$work/out" 2>"$work/err" </dev/null
    [ $? -eq "$status" ] && [ ! -s "$work/out" ] && [ "$(wc -l <"$work/err")" -eq 1 ] && grep -F -- "$text" "$work/err"
}

# upload NAME OCTETS: the octets as printf's %b has them.
upload() { printf '%b' "$2" >"$uploads/$1"; }

# has_records LINE..: the record file reads as these lines, and has nothing else.
has_records() { "$work/read-records" <"$work/records" | diff <(printf '%s\n' "$@") -; }

# has_units NAME..: these files are in the folder for units, which is then emptied.
has_units() { diff <(printf '%s\n' "$@") <(ls "$uploads/units") && rm "$uploads/units"/*; }

# The library's words for a refusal, as README.md has them.
cause_of() { awk -F' [|] ' -v row="| $1" '$1 == row { sub(/ \|$/, "", $2); print $2 }' README.md; }

takes_paper_sample() {
    intake_prints "8 refused 13 $(cause_of 13)
9 refused 13 $(cause_of 13)
14 refused 1 2 $(cause_of 1); the upload ends here, with octets left: 2
units 1 packets 1 missing 0 broken 0 repeats 0 refused 3
" --units "$uploads/units" --records "$work/records" 7:42:0:1:2:samples/paper.bin &&
        cmp "$work/records" <(printf '\0\7\0\52\0\0\0\1\0\0\0\1\0\0\0\0\0\0\0\0') && has_records '7 42 units 1 packets 1 missing 0 broken 0' &&
        cmp "$uploads/units/0-0.unit" <(printf '\xAA\xBB') && has_units 0-0.unit
}

# The group of three packets is whole only where a lane may hold its front. APID 100 has a secondary header of six octets.
takes_every_sample() {
    "$work/intake" --units "$uploads/units" --records "$work/records" 7:42:0:0:1:samples/every.bin 65535:100:6:0:0:samples/every.bin \
        8:42:0:0:0:samples/every.bin >"$work/out" && [ "$(grep -cE ' refused [0-9]+ [a-z]' "$work/out")" -eq 49 ] &&
        has_records '7 42 units 2 packets 4 missing 0 broken 0' '65535 100 units 1 packets 1 missing 0 broken 0' \
            '8 42 units 1 packets 3 missing 1 broken 0' &&
        cmp "$uploads/units/0-0.unit" <(printf 'unsegmented telemetry') &&
        cmp "$uploads/units/0-1.unit" <(printf 'first of a group, more of it, and its last') &&
        cmp "$uploads/units/1-0.unit" <(printf 'after a secondary header') && has_units 0-0.unit 0-1.unit 1-0.unit 2-0.unit
}

# One packet of each in turn: while lane 0 holds a block, lane 1 finds none; the shorter upload is passed over.
takes_in_turn() {
    local block
    block=$(printf '\\xAA%.0s' {1..256})
    upload a '\x00\x2A\x40\x00\x00\xFF'"$block"'\x00\x2A\x80\x01\x00\x00\x11\xE0\xE0' && upload b '\x00\x2A\x40\x00\x00\xFF'"$block"'\x00\x2A\x40\x01\x00\xFF'"$block" &&
        intake_prints "1 0 refused 27 $(cause_of 27)
0 269 refused 13 $(cause_of 13)
0 270 refused 13 $(cause_of 13)
0 units 1 packets 2 missing 0 broken 0 repeats 0 refused 2
1 units 0 packets 1 missing 0 broken 1 repeats 0 refused 1
2 units 0 packets 0 missing 0 broken 0 repeats 0 refused 0
" --records "$work/records" "1:42:0:0:64:$uploads/a" "2:42:0:0:64:$uploads/b" 3:0:0:63:63:/dev/null &&
        has_records '1 42 units 1 packets 2 missing 0 broken 0' '2 42 units 0 packets 1 missing 0 broken 1' '3 0 units 0 packets 0 missing 0 broken 0'
}

# A repeat, a gap, a stray, and a group that is open at the end; nothing of it is refused.
counts() {
    upload a '\x00\x2A\xC0\x05\0\0\1\x00\x2A\xC0\x05\0\0\1\x00\x2A\xC0\x09\0\0\1\x00\x2A\x00\x0A\0\0\1\x00\x2A\x40\x0B\0\0\1' &&
        intake_prints $'units 2 packets 4 missing 3 broken 1 repeats 1 refused 0\n' --records "$work/records" "7:42:0:1:1:$uploads/a" &&
        has_records '7 42 units 2 packets 4 missing 3 broken 1'
}

# no_packet NUMBER PLACE OCTETS [WORDS]: octets that are no packet end their upload with the offset, the number, the place in the packet, the words (those of
# README.md if none are given) and the octets left, and the other goes on.
no_packet() {
    local told="refused $1 $2 ${4-$(cause_of "$1")}"
    upload a "$3"'\xE0' && upload b '\xE0'"$3"'\xE0' && intake_prints "0 0 $told; the upload ends here, with octets left: $(wc -c <"$uploads/a")
1 0 refused 13 $(cause_of 13)
1 1 $told; the upload ends here, with octets left: $(wc -c <"$uploads/a")
0 units 0 packets 0 missing 0 broken 0 repeats 0 refused 1
1 units 0 packets 0 missing 0 broken 0 repeats 0 refused 2
" "7:42:0:1:1:$uploads/a" "7:42:0:1:1:$uploads/b"
}

says_no_packet() {
    no_packet 1 7 '\x00\x2A\xC0\x05\x00\x01' && no_packet 2 0 '\x20' && no_packet 3 0 '\x0F\xFF\xC0\x00\x00\x00\x00' && no_packet 4 1 '\xE9\x01' &&
        no_packet 4 2 '\xEA\x00\x00\x03' && no_packet 4 4 '\xEB\x00\x00\x00\x00\x00\x00\x07' && no_packet 5 4 '\xEB\x00\x00\x00\x00\x01\x00\x07' &&
        no_packet 6 0 '\xE4' && no_packet 6 0 '\xFA\x03\x00\x04'
}

# Of the causes of 7 that which the place shows; of two, the earlier.
says_what_names_nothing() {
    local extension='the extension is not 0, and the protocol ID is not 6' field='the CCSDS field is not 0'
    no_packet 7 0 '\xF9\x03\x00' 'protocol ID 6 in a 1 or 2 octet header' && no_packet 7 1 '\xEA\x13\x00\x05\x55' "$extension" &&
        no_packet 7 2 '\xEB\x00\x01\x00\x00\x00\x00\x09\x55' "$field" && no_packet 7 3 '\xFB\x03\x00\x01\x00\x00\x00\x09\x55' "$field" &&
        no_packet 7 1 '\xEB\x03\x00\x01\x00\x00\x00\x09\x55' "$extension"
}

# not_taken NUMBER SETTINGS OCTETS: the packet is refused, and the next one is not.
not_taken() {
    upload a "$3"'\x00\x2A\xC0\x05\x00\x01\xAA\xBB' && intake_prints "0 refused $1 $(cause_of "$1")
units $4 packets $4 missing 0 broken 0 repeats 0 refused $((2 - $4))
" "$2:$uploads/a"
}

says_not_taken() {
    not_taken 13 7:42:0:0:1 '\xE0' 1 && not_taken 14 7:42:0:0:1 '\x10\x2A\xC0\x05\0\0\1' 1 && not_taken 15 7:42:0:0:1 '\x00\x2B\xC0\x05\0\0\1' 1 &&
        not_taken 16 7:42:0:0:1 '\x08\x2A\xC0\x05\0\0\1' 1 && not_taken 19 7:42:0:0:0 '\x00\x2A\x40\x05\0\0\1' 1 &&
        upload a '\x08\x2A\xC0\x05\0\0\1' && intake_prints "0 refused 17 $(cause_of 17)
units 0 packets 0 missing 0 broken 0 repeats 0 refused 1
" "7:42:2:0:1:$uploads/a"
}

# The same packet of two blocks: the first lane's own cap is 1; in the second one's way is only what the third is promised.
says_whose_fault() {
    upload a '\x00\x2A\x40\x00\x01\x00'"$(printf '\\xAA%.0s' {1..257})" && intake_prints "0 0 refused 19 $(cause_of 19)
1 0 refused 27 $(cause_of 27)
0 units 0 packets 0 missing 0 broken 0 repeats 0 refused 1
1 units 0 packets 0 missing 0 broken 0 repeats 0 refused 1
2 units 0 packets 0 missing 0 broken 0 repeats 0 refused 0
" "7:42:0:0:1:$uploads/a" "8:42:0:0:2:$uploads/a" 9:0:0:63:63:/dev/null && intake_prints "0 0 refused 19 $(cause_of 19)
0 units 0 packets 0 missing 0 broken 0 repeats 0 refused 1
1 units 0 packets 1 missing 0 broken 1 repeats 0 refused 0
" "7:42:0:0:1:$uploads/a" "8:42:0:0:2:$uploads/a"
}

# Settings that fit their types are the library's to judge. A lane that isn't opened has no record.
says_not_opened() {
    local settings
    for settings in 7:2047:0:0:1 7:65535:0:0:1 7:42:64:0:1 7:42:255:0:1 7:42:0:2:1 7:42:0:0:65 7:42:0:255:255; do
        intake_prints "opening refused 22 $(cause_of 22)"$'\n' --records "$work/records" "$settings:samples/paper.bin" && [ ! -s "$work/records" ] || return
    done
    intake_prints "1 opening refused 23 $(cause_of 23)
0 units 0 packets 0 missing 0 broken 0 repeats 0 refused 0
2 units 0 packets 0 missing 0 broken 0 repeats 0 refused 0
" --records "$work/records" 7:42:0:60:64:/dev/null 8:42:0:5:64:/dev/null 9:42:0:4:4:/dev/null &&
        has_records '7 42 units 0 packets 0 missing 0 broken 0' '9 42 units 0 packets 0 missing 0 broken 0'
}

full_lane() {
    local lane
    lane=$("$work/make-uploads" long "$uploads") && "$work/intake-plain" --records "$work/records" "$lane" >"$work/out" &&
        diff "$work/out" <(printf '%s\n' "1835008 refused 18 $(cause_of 18)" "1835015 refused 18 $(cause_of 18)" \
            'units 262144 packets 262144 missing 0 broken 0 repeats 1 refused 2') &&
        "$second" credit "$lane" | cmp - "$work/records"
}

# credited_alike SEED: eight generated uploads. With and without sanitizers alike, the records are the second program's, and the tallies the records'.
credited_alike() {
    local lanes
    mapfile -t lanes < <("$work/make-uploads" "$1" "$uploads") && [ "${#lanes[@]}" -eq 8 ] &&
        "$work/intake" --records "$work/records" "${lanes[@]}" >"$work/out" && "$work/intake-plain" "${lanes[@]}" | cmp - "$work/out" &&
        "$second" credit "${lanes[@]}" | cmp - "$work/records" &&
        diff <(sed -n 's/^[0-7] \(units .*\) repeats .*/\1/p' "$work/out") <("$work/read-records" <"$work/records" | cut -d ' ' -f 3-) &&
        cat "$work/out" >>"$work/all-lanes"
}

credits_alike() {
    local seed number
    : >"$work/all-lanes"
    for seed in {1..60}; do
        credited_alike "$seed" || { echo "seed $seed" && return 1; }
    done
    # Something of every kind was met.
    for number in {1..7} {13..17} 19 22 23 27; do
        grep -q " refused $number " "$work/all-lanes" || { echo "refusal $number was not met" && return 1; }
    done
    grep -qE ' units [1-9][0-9]* packets [1-9][0-9]* missing [1-9][0-9]* broken [1-9][0-9]* repeats [1-9]' "$work/all-lanes"
}

# frame COUNT POINTER OCTETS: a frame of a frame file; its octets are given as \xAB each, and told so.
frame() {
    printf '\\x%02X\\x%02X\\x%02X\\x%02X\\x%02X\\x%02X%s' $(($1 / 256)) $(($1 % 256)) $(($2 / 256)) $(($2 % 256)) $((${#3} / 1024)) $((${#3} / 4 % 256)) "$3"
}

# octets NUMBER OCTET: the octet so often.
octets() { printf "\\\\$2%.0s" $(seq "$1"); }

# A packet over three frames, a repeat, a lost frame, an idle-only one, a rest that is dropped, and a frame that is refused.
takes_frame_sample() {
    intake_prints "0 refused 13 $(cause_of 13)
28 refused 13 $(cause_of 13)
103 refused 13 $(cause_of 13)
117 frame 5 refused 28 the first header pointer is an offset at or past the field's end
145 refused 13 $(cause_of 13)
145 refused 13 $(cause_of 13)
145 refused 13 $(cause_of 13)
units 2 packets 2 missing 1 broken 0 repeats 0 refused 7
" --frames --units "$uploads/units" --records "$work/records" 7:42:0:1:2:samples/pass.frames &&
        has_records '7 42 units 2 packets 2 missing 1 broken 0' && cmp "$uploads/units/0-0.unit" <(printf '%b' "\\x$(printf '%02X\\x' {1..17})12") &&
        cmp "$uploads/units/0-1.unit" <(printf '\xAA\xBB') && has_units 0-0.unit 0-1.unit
}

# bad_frame WORDS COUNT POINTER OCTETS: the frame is refused with these words, and the next one is taken.
bad_frame() {
    local good
    good=$(frame 5 0 '\x00\x2A\xC0\x05\x00\x01\xAA\xBB')
    upload a "$good$(frame "$2" "$3" "$4")$(frame 6 0 '\x00\x2A\xC0\x06\x00\x01\xCC\xDD')" && intake_prints "14 frame $2 refused 28 $1
units 2 packets 2 missing 0 broken 0 repeats 0 refused 1
" --frames "7:42:0:0:1:$uploads/a"
}

says_bad_frame() {
    local field='the field has not 8 to 2,046 octets' pointer="the first header pointer is an offset at or past the field's end"
    bad_frame "$field" 6 2047 '' && bad_frame "$field" 6 2047 "$(octets 7 xE0)" && bad_frame "$field" 6 2046 "$(octets 2047 xE0)" &&
        bad_frame "$field" 256 2048 "$(octets 7 xE0)" && bad_frame 'the count is over 255' 256 0 "$(octets 8 xE0)" &&
        bad_frame 'the count is over 255' 65535 2048 "$(octets 8 xE0)" && bad_frame "$pointer" 6 8 "$(octets 8 xE0)" &&
        bad_frame "$pointer" 6 65535 "$(octets 2046 xE0)" && bad_frame "$pointer" 5 2048 "$(octets 8 xE0)"
}

# Wherever a frame is cut off, in its header or its field. What came out before is credited.
says_cut_off() {
    local whole n
    whole=$(frame 5 0 '\x00\x2A\xC0\x05\x00\x01\xAA\xBB')$(frame 6 0 '\x00\x2A\xC0\x06\x00\x01\xCC\xDD')
    for n in {1..13}; do
        printf '%b' "$whole" | head -c $((14 + n)) >"$uploads/a" && intake_prints "14 bad the frame is cut off; the upload ends here, with octets left: $n
units 1 packets 1 missing 0 broken 0 repeats 0 refused 1
" --frames "7:42:0:0:1:$uploads/a" || return
    done
    intake_prints $'units 0 packets 0 missing 0 broken 0 repeats 0 refused 0\n' --frames 7:42:0:0:1:/dev/null
}

# Each packet that a lane refuses is told with the frame in which it ends, also where it begins in another; the uploads are served in turn.
takes_frames_in_turn() {
    upload a "$(frame 255 0 '\xE0\x00\x2B\xC0\x00\x00\x00')$(frame 0 1 '\x55\xE0\xE0\xE0\xE0\xE0\x00\x2A\xC0')$(frame 1 5 '\x05\x00\x01\xAA\xBB\xE0\xE0\xE0')" &&
        upload b "$(frame 9 0 '\x00\x2A\xC0\x05\x00\x01\xAA\xBB')" && printf '\x07\xFF' >>"$uploads/b" && intake_prints "0 0 frame 255 refused 28 the field has not 8 to 2,046 octets
0 13 refused 13 $(cause_of 13)
0 13 refused 13 $(cause_of 13)
1 14 bad the frame is cut off; the upload ends here, with octets left: 2
0 13 refused 13 $(cause_of 13)
0 13 refused 13 $(cause_of 13)
0 13 refused 13 $(cause_of 13)
0 28 refused 13 $(cause_of 13)
0 28 refused 13 $(cause_of 13)
0 28 refused 13 $(cause_of 13)
0 units 1 packets 1 missing 0 broken 0 repeats 0 refused 9
1 units 1 packets 1 missing 0 broken 0 repeats 0 refused 1
" --frames "1:42:0:0:1:$uploads/a" "2:42:0:0:1:$uploads/b"
}

# A longer file than the program `deframe` takes, and more packets than a lane does: the tallies are those of the packets.
credits_long_frames() {
    local lane settings
    lane=$("$work/make-uploads" long "$uploads") && settings=${lane%"$uploads/0"} && "$work/make-frames" whole <"$uploads/0" >"$uploads/frames" &&
        [ "$(wc -c <"$uploads/frames")" -gt 1048576 ] && "$work/intake-plain" --frames --records "$work/records" "$settings$uploads/frames" >"$work/out" &&
        [ "$(tail -n 1 "$work/out")" = 'units 262144 packets 262144 missing 0 broken 0 repeats 1 refused 2' ] && "$second" credit "$lane" | cmp - "$work/records"
}

# framed_alike SEED: frame files of eight generated uploads, with frames that are lost, repeated or wrong. The records are those that the second program
# gives for the packets that it takes out of them.
framed_alike() {
    local lane path
    local -a lanes framed=() packets=()
    mapfile -t lanes < <("$work/make-uploads" "$1" "$uploads") && [ "${#lanes[@]}" -eq 8 ] || return
    for lane in "${lanes[@]}"; do
        path=${lane#*:*:*:*:*:}
        "$work/make-frames" "$1" <"$path" >"$path.frames" && "$second" packets <"$path.frames" >"$path.packets" &&
            "$second" frames <"$path.frames" >>"$work/all-frames" || return
        framed+=("$lane.frames") packets+=("$lane.packets")
    done
    "$work/intake" --frames --records "$work/records" "${framed[@]}" >"$work/out" && "$work/intake-plain" --frames "${framed[@]}" | cmp - "$work/out" &&
        "$second" credit "${packets[@]}" | cmp - "$work/records" &&
        diff <(sed -n 's/^\([0-7] units .*\) refused .*/\1/p' "$work/out") <("$work/intake-plain" "${packets[@]}" | sed -n 's/^\([0-7] units .*\) refused .*/\1/p')
}

frames_alike() {
    local seed flags
    : >"$work/all-frames"
    for seed in {1..15}; do
        framed_alike "$seed" || { echo "seed $seed" && return 1; }
    done
    # Something of every kind was met.
    for flags in '0 0' '0 1' '1 0' '1 1'; do
        grep -qE " taken [1-9][0-9]* [0-9]+ $flags " "$work/all-frames" || { echo "taken with $flags was not met" && return 1; }
    done
    grep -q ' refused 28$' "$work/all-frames" && grep -q ' repeat$' "$work/all-frames"
}

intake_usage() {
    intake_fails 2 'usage: intake [--units DIR] [--records FILE] [--frames]' && intake_fails 2 'usage: ' --units && intake_fails 2 'usage: ' --frames &&
        intake_fails 2 'usage: ' --frames --units && intake_fails 2 'usage: ' --records "$work/records" &&
        intake_fails 2 'usage: ' --unit "$work" 7:42:0:1:1:/dev/null && intake_fails 2 'usage: ' -h &&
        intake_fails 2 "SECONDARY:SHARE:CAP:UPLOAD, not '7:42:0:1:1'" 7:42:0:1:1 && intake_fails 2 "not ''" '' &&
        intake_fails 2 'eight lanes' 7:42:0:{1..9}:9:/dev/null
}

# Each number at the end of its range, and over it; and what else is no number.
intake_numbers() {
    local bad
    for bad in 65536 70000 4294967303 99999999999999999999999 '' x +1 ' 1' '1 ' 0x7 1e1; do
        intake_fails 2 "STATION is a number from 0 to 65535, not '$bad'" "$bad:42:0:1:1:/dev/null" &&
            intake_fails 2 "APID is a number from 0 to 65535, not '$bad'" "7:$bad:0:1:1:/dev/null" || return
    done
    for bad in 256 300 4294967296 '' x -1 ' 1' 1.0; do
        intake_fails 2 "SECONDARY is a number from 0 to 255, not '$bad'" "7:42:$bad:1:1:/dev/null" &&
            intake_fails 2 "SHARE is a number from 0 to 255, not '$bad'" "7:42:0:$bad:1:/dev/null" &&
            intake_fails 2 "CAP is a number from 0 to 255, not '$bad'" "7:42:0:1:$bad:/dev/null" || return
    done
    intake_prints $'units 0 packets 0 missing 0 broken 0 repeats 0 refused 0\n' 65535:2046:63:64:064:/dev/null
}

# A path may have colons and blanks; the records may not be written over an upload.
intake_paths() {
    cp samples/paper.bin "$uploads/a: b" && "$work/intake" "7:42:0:1:1:$uploads/a: b" | grep -q '^units 1 ' &&
        intake_fails 2 "the records would overwrite $uploads/a: b" --records "$uploads/a: b" "7:42:0:1:1:$uploads/a: b" &&
        cmp samples/paper.bin "$uploads/a: b"
}

intake_unreadable() {
    intake_fails 1 "can't read $work/nowhere: " --records "$work/unwritten" 7:42:0:1:1:samples/paper.bin "7:42:0:1:1:$work/nowhere" &&
        intake_fails 1 "can't read samples: " --records "$work/unwritten" 7:42:0:1:1:samples &&
        intake_fails 1 "can't read $work/nowhere: " --frames --records "$work/unwritten" 7:42:0:1:1:samples/pass.frames "7:42:0:1:1:$work/nowhere" &&
        intake_fails 1 "can't read samples: " --records "$work/unwritten" --frames 7:42:0:1:1:samples && [ ! -e "$work/unwritten" ]
}

# no_success TEXT ARGUMENT..: a file can't be written, and no tallies are told.
no_success() {
    local text=$1
    shift
    "$work/intake" "$@" 7:42:0:1:1:samples/paper.bin >"$work/out" 2>"$work/err"
    [ $? -eq 1 ] && ! grep units "$work/out" && [ "$(wc -l <"$work/err")" -eq 1 ] && grep -qF -- "$text" "$work/err"
}

# A file that takes what is written and does not keep it is found out too.
intake_unwritable() {
    no_success "can't write $work/nowhere/0-0.unit: " --units "$work/nowhere" && no_success "can't write $work/nowhere/r: " --records "$work/nowhere/r" &&
        no_success "can't write $work: " --records "$work" && no_success "can't write /dev/full: " --records /dev/full &&
        no_success "can't write a unit in " --units "$(printf 'x%.0s' {1..5000})" && ln -s /dev/full "$uploads/units/0-0.unit" &&
        no_success "can't write $uploads/units/0-0.unit: " --units "$uploads/units" && rm "$uploads/units/0-0.unit" &&
        no_success '/dev/null does not read back as it was written' --records /dev/null
}

intake_full_output() {
    "$work/intake" 7:42:0:1:1:samples/paper.bin 2>"$work/err" >/dev/full
    [ $? -eq 1 ] && [ "$(wc -l <"$work/err")" -eq 1 ] && grep "can't write standard output: " "$work/err"
}

# The program without sanitizers, which need more memory than this.
intake_no_memory() {
    dd if=/dev/zero of="$work/large" bs=1 count=0 seek=300000000 2>"$work/err" &&
        (ulimit -v "${little_memory:-100000}" && exec "$work/intake-plain" "7:42:0:1:1:$work/large") >"$work/out" 2>"$work/err"
    [ $? -eq 1 ] && [ ! -s "$work/out" ] && [ "$(wc -l <"$work/err")" -eq 1 ] && grep "can't read $work/large: " "$work/err"
}

check 'intake: builds, plain and with sanitizers' builds_intake
check "intake: the paper's recording" takes_paper_sample
check 'intake: samples/every.bin in three lanes, and its units' takes_every_sample
check 'intake: a packet of each upload in turn' takes_in_turn
check 'intake: repeats, gaps, strays and an open group' counts
check 'intake: octets that are no packet, the place and the words' says_no_packet
check 'intake: a header that names nothing, the place and the words' says_what_names_nothing
check 'intake: packets that a lane refuses, in words' says_not_taken
check "intake: whose fault no room is, the lane's own or the others', in words" says_whose_fault
check 'intake: lanes that are not opened, in words' says_not_opened
check 'intake: more packets than a lane takes' full_lane
check 'intake: generated uploads are credited as by the second program' credits_alike
check 'intake: samples/pass.frames, and its units' takes_frame_sample
check 'intake: frames that are refused, in words' says_bad_frame
check 'intake: a frame that is cut off' says_cut_off
check 'intake: frame files in turn' takes_frames_in_turn
check 'intake: a long frame file' credits_long_frames
check 'intake: generated frame files are credited as by the second program' frames_alike
check 'intake: a wrong call' intake_usage
check 'intake: numbers out of their range' intake_numbers
check 'intake: paths with colons, and the records over an upload' intake_paths
check 'intake: an upload that is missing or a folder' intake_unreadable
check 'intake: units or records that cannot be written or kept' intake_unwritable
check 'intake: an output that is full' intake_full_output
check 'intake: too little memory' intake_no_memory
