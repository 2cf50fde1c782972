# The fuzzing harness (tests/fuzz) without a fuzzer: the stored corpus passes, and finds each fault of a library with one fault.
fuzz_flags=(-std=c11 -g -O1 -Wall -Wextra -Werror -fsanitize=address,undefined -fno-sanitize-recover=all -Iinclude)
fuzz_sources=(tests/fuzz/replay.c tests/fuzz/harness/*.c)
fuzz_archive=target/lib/libbranmuslin.a

fuzz_builds() { make "$fuzz_archive" && "${CC:-cc}" "${fuzz_flags[@]}" "${fuzz_sources[@]}" "$fuzz_archive" -o "$work/fuzz-replay"; }

fuzz_passes() { "$work/fuzz-replay" tests/fuzz/corpus/* | tee "$work/out" && tail -n 1 "$work/out" | grep -x '.* refusals that none met: 0'; }

# Each input of the seed maker is stored as it makes it; the others, found-*, are the fuzzer's that reached most beyond those (-merge=1).
fuzz_seeds() {
    local seed
    mkdir -p "$work/seeds" && "${CC:-cc}" "${fuzz_flags[@]}" tests/fuzz/seeds.c -o "$work/fuzz-seeds" && "$work/fuzz-seeds" "$work/seeds" || return
    for seed in "$work"/seeds/*; do
        cmp "$seed" "tests/fuzz/corpus/${seed##*/}" || return
    done
    [ "$(find tests/fuzz/corpus -type f | wc -l)" -le 80 ] && [ "$(cat tests/fuzz/corpus/* | wc -c)" -lt 100000 ]
}

# The faults are named in tests/fuzz/wrong.c; with none of them, the wrapped library passes.
fuzz_finds_faults() {
    local fault wraps faults
    mapfile -t wraps < <(sed -n 's/^WRAPPED([a-z0-9_]*, \([a-z_]*\),.*/-Wl,--wrap=branmuslin_\1/p' tests/fuzz/wrong.c)
    mapfile -t faults < <(grep -o 'wrong("[^"]*' tests/fuzz/wrong.c | cut -d '"' -f 2)
    [ "${#wraps[@]}" -eq 13 ] && [ "${#faults[@]}" -ge 64 ] &&
        "${CC:-cc}" "${fuzz_flags[@]}" "${fuzz_sources[@]}" tests/fuzz/wrong.c "$fuzz_archive" "${wraps[@]}" -o "$work/fuzz-wrong" &&
        "$work/fuzz-wrong" tests/fuzz/corpus/* || return
    for fault in "${faults[@]}"; do
        echo "the fault $fault"
        ! WRONG=$fault "$work/fuzz-wrong" tests/fuzz/corpus/* >"$work/out" 2>"$work/err" || return
        grep -E "not so: |${bad_access:-AddressSanitizer: SEGV}" "$work/err" || return
    done
}

fuzz_without_clang() {
    CLANG=no-such-clang tests/fuzz/run 1 "$work/fuzz" >"$work/out" 2>"$work/err"
    [ $? -eq 1 ] && [ ! -s "$work/out" ] && [ "$(wc -l <"$work/err")" -eq 1 ] && grep 'no-such-clang is not installed' "$work/err"
}

check 'fuzz: the harness builds without a fuzzer' fuzz_builds
check 'fuzz: the stored corpus passes and meets every refusal of every function' fuzz_passes
check 'fuzz: the stored corpus is small and has what the seed maker makes' fuzz_seeds
check 'fuzz: the stored corpus finds each fault of a wrong library' fuzz_finds_faults
check 'fuzz: the command without clang' fuzz_without_clang
if command -v clang >/dev/null; then
    check 'fuzz: the command fuzzes for two seconds' tests/fuzz/run 2 "$work/fuzz"
else
    echo 'skip  clang is not installed: nothing is fuzzed beyond the stored corpus'
fi
