# The independent second program (tests/second): its own tests, then compared with the programs `cases`, `list`, `replay` and `deframe`, and with the C
# library by calling it.
second=$CARGO_TARGET_DIR/release/second
calls=$CARGO_TARGET_DIR/release/calls
cargo_for_second=(--quiet --release --offline --manifest-path tests/second/Cargo.toml)

# Only `calls` has the library in it: on another machine than the library's it alone is compiled for that.
if [ -z "${emulated-}" ]; then
    export BRANMUSLIN_ARCHIVE=$PWD/target/lib/libbranmuslin.a
else
    calls=$CARGO_TARGET_DIR/$library_target/release/calls
fi

calls_for_the_library() {
    BRANMUSLIN_ARCHIVE=$PWD/target/lib/libbranmuslin.a RUSTC=/usr/bin/rustc CARGO_TARGET_X86_64_UNKNOWN_LINUX_GNU_LINKER=x86_64-linux-gnu-gcc \
        cargo build "${cargo_for_second[@]}" --bin calls --target "$library_target"
}

second_cases() {
    "$second" cases <crates/cases/stdin >"$work/second-cases" && target/bin/cases <crates/cases/stdin >"$work/cases" &&
        cmp "$work/second-cases" "$work/cases" && cmp "$work/second-cases" crates/cases/stdout
}

check 'the second program builds' cargo build "${cargo_for_second[@]}"
[ -z "${emulated-}" ] || check "the second program's calls of the library build for $library_target" calls_for_the_library
check "the second program's own tests" cargo test "${cargo_for_second[@]}"
check 'cases: the second program prints the same' second_cases
check 'cases: the second program reads and walks thousands of generated inputs alike' "$second" compare-cases target/bin/cases
check 'list: the second program lists thousands of generated inputs alike' "$second" compare target/bin/list
check 'replay: the second program replays thousands of generated run files alike' "$second" compare-replay target/bin/replay
check 'frames: the second program takes packets out of more than a thousand generated frame files alike' "$second" compare-frames target/bin/deframe
check 'library: the second program calls it and finds the same, every octet' "$calls"
