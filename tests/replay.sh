# What the program `replay` prints for the sample run and its fronts, at the limits of a run file's length, and where it can't read or write.
replay=target/bin/replay
# The Adler-32 of a pool that no packet was stored in.
untouched=1073741825

# replays_both FILE: the program and the second one print the same for the run file; it is left in $work/replayed.
replays_both() { "$replay" <"$1" >"$work/replayed" && "$second" replay <"$1" | cmp - "$work/replayed"; }

# replayed_as LINE..: what was left there are these lines.
replayed_as() { diff <(printf '%s\n' "$@") "$work/replayed"; }

replays_the_sample() { replays_both samples/lanes.run && cmp "$work/replayed" samples/lanes.txt; }

nothing_replays_its_end() { replays_both /dev/null && replayed_as "end 0 0 $untouched"; }

# The sample's last call begins at 127.
cut_off_call_is_bad() {
    head -c 132 samples/lanes.run >"$work/run" && replays_both "$work/run" &&
        cmp "$work/replayed" <(head -n 9 samples/lanes.txt && echo '127 bad' && sed -n 's/^end 133 10 /end 127 9 /p' samples/lanes.txt)
}

every_front_alike() {
    local n
    for n in {1..133}; do
        head -c "$n" samples/lanes.run >"$work/run" && replays_both "$work/run" || return
    done
}

# A lower-case letter is another octet.
another_first_octet_is_bad() {
    { head -c 9 samples/lanes.run && printf 'c\0\0\0\0\24' && head -c 9 samples/lanes.run; } >"$work/run" && replays_both "$work/run" &&
        replayed_as '0 open 0 ok' '9 bad' "end 9 1 $untouched"
}

# run_of N: a run file of N octets: a packet of no octets, and closings of lane 67, each of six letters C.
run_of() { printf 'P\0\0\0\0\0\0\0\0\0' && head -c "$(($1 - 10))" /dev/zero | tr '\0' C; }

longest_is_replayed_whole() {
    run_of 1048576 >"$work/run" && replays_both "$work/run" && [ "$(wc -l <"$work/replayed")" -eq 174763 ] &&
        [ "$(head -n 1 "$work/replayed")" = '0 packet 0 refused 11' ] && [ "$(grep -c ' close 67 refused 11$' "$work/replayed")" -eq 174761 ] &&
        [ "$(tail -n 1 "$work/replayed")" = "end 1048576 174762 $untouched" ]
}

# length_is_too_long N
length_is_too_long() { run_of "$1" >"$work/run" && "$replay" <"$work/run" >"$work/replayed" && replayed_as 'too long'; }

# defined NAME FILE: the number that a definition gives.
defined() { sed -n "s/^$1 = \([0-9]*\)\$/\1/p" "$2" | grep .; }

# The law that chunks are the run's text speaks of a pool and an output of these lengths, and one octet more than the longest file shows a longer one.
rooms_are_as_defined() {
    local blocks octets output longest room
    grep -q '^pool_octets = blocks \* block_octets$' crates/pool/specs/Octets.antt &&
        blocks=$(defined blocks crates/marks/specs/Blocks.antt) && octets=$(defined block_octets crates/marks/specs/Blocks.antt) &&
        output=$(sed -n 's/^run_text s = .* (zeros pool_octets) (zeros \([0-9]*\)))$/\1/p' crates/replaying/specs/Run.antt | grep .) &&
        longest=$(defined longest crates/replaying/specs/Run.antt) || return
    for room in $((blocks * octets)) "$output" $((longest + 1)); do
        grep -E "^    let mut [a-z]+(: \[u8; $room\] = Default::default\(\)| = \[0; $room\]);$" crates/replay/src/main.rt || return
    done
}

# A pipe hands over its octets in pieces.
pieces_are_one_run() {
    { head -c 40 samples/lanes.run && sleep 0.2 && tail -c +41 samples/lanes.run; } | "$replay" | cmp - samples/lanes.txt
}

# told_of NAME: the program said one line on standard error, which names the file.
told_of() { [ "$(wc -l <"$work/err")" -eq 1 ] && grep "^$1: " "$work/err"; }

unwritable_is_told() {
    "$replay" <samples/lanes.run 2>"$work/err" >/dev/full
    told_of 'standard output' || return
    "$replay" <samples/lanes.run 2>"$work/err" >&-
    told_of 'standard output'
}

unreadable_is_told() {
    "$replay" <samples >"$work/replayed" 2>"$work/err"
    [ ! -s "$work/replayed" ] && told_of 'standard input'
}

check 'replay: samples/lanes.run' replays_the_sample
check 'replay: no octets' nothing_replays_its_end
check 'replay: a call that is cut off' cut_off_call_is_bad
check 'replay: every front of the sample' every_front_alike
check 'replay: another first octet' another_first_octet_is_bad
check 'replay: 1,048,576 octets are replayed whole' longest_is_replayed_whole
check 'replay: 1,048,577 octets are too long' length_is_too_long 1048577
check 'replay: three million octets are too long' length_is_too_long 3000000
check 'replay: its pool, output and input are as long as defined' rooms_are_as_defined
check 'replay: a run file that comes in pieces' pieces_are_one_run
check 'replay: an output that is full or closed' unwritable_is_told
check 'replay: a folder as standard input' unreadable_is_told
