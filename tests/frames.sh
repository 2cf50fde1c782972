# What the program `deframe` prints for the sample frame file and its fronts, which packets it writes to descriptor 3, the limits of a frame file's length,
# and where it can't read or write. The second program's text and packets are compared with its own.
deframe=target/bin/deframe
# The Adler-32 of a buffer in which no piece was kept.
no_piece_kept=536870913

# deframes_both FILE: both print the same for the frame file, and have the same packets; the text is left in $work/deframed.
deframes_both() {
    "$deframe" <"$1" >"$work/deframed" 3>"$work/deframed-packets" && "$second" frames <"$1" | cmp - "$work/deframed" &&
        "$second" packets <"$1" | cmp - "$work/deframed-packets"
}

# deframed_as LINE..: what was left there are these lines.
deframed_as() { diff <(printf '%s\n' "$@") "$work/deframed"; }

deframes_the_sample() { deframes_both samples/pass.frames && cmp "$work/deframed" samples/pass.txt; }

no_octets_deframe_to_an_end() { deframes_both /dev/null && deframed_as "end 0 0 $no_piece_kept"; }

# The sample's last frame begins at 145; its header and its field are cut off.
cut_off_frame_is_bad() {
    local n
    for n in 146 150 151 158; do
        head -c "$n" samples/pass.frames >"$work/frames" && deframes_both "$work/frames" &&
            diff <(head -n 9 samples/pass.txt && echo '145 bad') <(head -n 10 "$work/deframed") && grep -x 'end 145 9 [0-9]*' "$work/deframed" || return
    done
}

every_front_deframes_alike() {
    local n
    for n in {1..159}; do
        head -c "$n" samples/pass.frames >"$work/frames" && deframes_both "$work/frames" || return
    done
}

# frames_of N: a frame file of N octets: a frame of 18 octets, then frames of 14 with the same count, and so repeats.
frames_of() {
    local i
    printf '\0\7\0\0\0\10\340\340\340\340\340\340\340\340' >"$work/many" || return
    for i in {1..18}; do
        cat "$work/many" "$work/many" >"$work/twice" && mv "$work/twice" "$work/many" || return
    done
    { printf '\0\7\0\0\0\14\340\340\340\340\340\340\340\340\340\340\340\340' && cat "$work/many"; } | head -c "$1"
}

longest_file_is_deframed_whole() {
    frames_of 1048576 >"$work/frames" && deframes_both "$work/frames" && [ "$(wc -l <"$work/deframed")" -eq 74899 ] &&
        [ "$(grep -c ' frame 7 repeat$' "$work/deframed")" -eq 74897 ] && [ "$(tail -n 1 "$work/deframed")" = "end 1048576 74898 $no_piece_kept" ] &&
        [ "$(wc -c <"$work/deframed-packets")" -eq 12 ]
}

# file_is_too_long N: and no packet is written.
file_is_too_long() {
    frames_of "$1" >"$work/frames" && "$deframe" <"$work/frames" >"$work/deframed" 3>"$work/deframed-packets" && deframed_as 'too long' &&
        [ ! -s "$work/deframed-packets" ]
}

# A pipe hands over its octets in pieces. Packets are not asked for.
pieces_are_one_file() {
    { head -c 40 samples/pass.frames && sleep 0.2 && tail -c +41 samples/pass.frames; } | "$deframe" 3>&- | cmp - samples/pass.txt
}

# deframe_told NAME: the program said one line on standard error, which names what it could not read or write.
deframe_told() { [ "$(wc -l <"$work/err")" -eq 1 ] && grep "$1" "$work/err"; }

deframe_unwritable() {
    "$deframe" <samples/pass.frames 2>"$work/err" >/dev/full 3>/dev/null
    deframe_told 'standard output' || return
    "$deframe" <samples/pass.frames 2>"$work/err" >&- 3>/dev/null
    deframe_told 'standard output' || return
    "$deframe" <samples/pass.frames 2>"$work/err" >"$work/deframed" 3>/dev/full
    deframe_told .
}

deframe_unreadable() {
    "$deframe" <samples >"$work/deframed" 2>"$work/err" 3>"$work/deframed-packets"
    [ ! -s "$work/deframed" ] && [ ! -s "$work/deframed-packets" ] && deframe_told 'standard input'
}

check 'frames: samples/pass.frames' deframes_the_sample
check 'frames: no octets' no_octets_deframe_to_an_end
check 'frames: a frame that is cut off' cut_off_frame_is_bad
check 'frames: every front of the sample' every_front_deframes_alike
check 'frames: 1,048,576 octets are taken whole' longest_file_is_deframed_whole
check 'frames: 1,048,577 octets are too long' file_is_too_long 1048577
check 'frames: three million octets are too long' file_is_too_long 3000000
check 'frames: a file that comes in pieces, and no packets' pieces_are_one_file
check 'frames: an output that is full or closed' deframe_unwritable
check 'frames: a folder as standard input' deframe_unreadable
