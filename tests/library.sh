# The C library as a C programmer meets it: built and installed by make, then used through the installed header and archive alone.
archive=target/lib/libbranmuslin.a
prefix=$work/prefix
cc=${CC:-cc}
strict=(-Wall -Wextra -Werror)
sanitized=(-g -fsanitize=address,undefined -fno-sanitize-recover=all)

# With a toolchain that always fails: what is current is not built again.
without_building() { mkdir -p "$work/failing" && ln -sf "$(type -P false)" "$work/failing/rt" && PATH="$work/failing:$PATH" "$@"; }

# A copy with nothing built, and no command on the path but those that make needs.
no_rt_for_make() {
    local tool
    mkdir -p "$work/bare/bin" "$work/bare/crates" && cp Makefile crates.txt "$work/bare" || return
    for tool in make find mkdir touch; do
        ln -sf "$(command -v "$tool")" "$work/bare/bin/$tool" || return
    done
    (cd "$work/bare" && PATH="$work/bare/bin" make) >"$work/out" 2>"$work/err" </dev/null
    [ $? -eq 2 ] && [ ! -s "$work/out" ] && [ "$(wc -l <"$work/err")" -eq 1 ] && grep 'toolchain (the command rt) is not installed' "$work/err"
}

# A file changed since the library was built, or while it was built, makes it outdated.
changes_are_noticed() {
    rm -rf "$work/copy" && mkdir -p "$work/copy/crates/"{a,branmuslin_c,lanes_c,frames_c} "$work/copy/bin" && cp Makefile crates.txt "$work/copy" &&
        : >"$work/copy/crates/a/a" &&
        printf '#!/bin/sh\nsleep 0.1; [ ! -e ../../edit ] || touch ../a/a\nto=out/lib${PWD##*/}.a; mkdir -p out && rm -f "$to" && ar qc "$to"\n' \
            >"$work/copy/bin/rt" && chmod +x "$work/copy/bin/rt" || return
    (
        cd "$work/copy" && PATH="$PWD/bin:$PATH" && make "$archive" && make -q "$archive" && sleep 0.1 && touch crates/a/a &&
            ! make -q "$archive" && touch edit && make "$archive" && ! make -q "$archive" && rm edit && make "$archive" && make -q "$archive"
    )
}

installed_as_built() {
    without_building make install PREFIX="$prefix" && cmp include/branmuslin.h "$prefix/include/branmuslin.h" &&
        cmp "$archive" "$prefix/lib/libbranmuslin.a" && grep -qxF "prefix=$prefix" "$prefix/lib/pkgconfig/branmuslin.pc"
}

files_in() { (cd "$1" && find . ! -type d | sort); }

# The package's folders stand in the .pc file, the stage doesn't.
staged() {
    make install DESTDIR="$work/a stage" PREFIX=/usr/b LIBDIR=/usr/b/lib64 &&
        diff <(files_in "$work/a stage") <(printf './usr/b/%s\n' include/branmuslin.h lib64/libbranmuslin.a lib64/pkgconfig/branmuslin.pc) &&
        diff <(head -n 3 "$work/a stage/usr/b/lib64/pkgconfig/branmuslin.pc") \
            <(printf '%s\n' prefix=/usr/b includedir=/usr/b/include libdir=/usr/b/lib64)
}

uninstalled() {
    : >"$prefix/lib/another" && make uninstall PREFIX="$prefix" && [ "$(files_in "$prefix")" = ./lib/another ] && rm "$prefix/lib/another"
}

# installed_flags: sets `flags` to what a program is compiled and linked with; a warning of the linker is an error.
installed_flags() {
    local said
    if command -v pkg-config >/dev/null; then
        said=$(PKG_CONFIG_PATH=$prefix/lib/pkgconfig pkg-config --cflags --libs branmuslin) && eval "flags=($said)" || return
    else
        flags=("-I$prefix/include" "-L$prefix/lib" -lbranmuslin)
    fi
    flags+=(-Wl,--fatal-warnings)
}

version_is_told() { [ "$(PKG_CONFIG_PATH=$prefix/lib/pkgconfig pkg-config --modversion branmuslin)" = 0.4.0 ]; }

c_tests() {
    installed_flags && "$cc" -std=c11 "${strict[@]}" "${sanitized[@]}" tests/c/*.c -o "$work/c-tests" "${flags[@]}" &&
        "$work/c-tests" >"$work/out" && grep -xE '[1-9][0-9]* checks passed' "$work/out"
}

header_alone() { "$cc" "-std=$1" -pedantic "${strict[@]}" -fsyntax-only -x c "$prefix/include/branmuslin.h"; }

header_in_cpp() {
    installed_flags && "${CXX:-g++}" -std=c++11 -pedantic "${strict[@]}" tests/c/header.cpp -o "$work/header-cpp" "${flags[@]}" &&
        "$work/header-cpp"
}

defined_names() { nm -g --defined-only "$archive" | awk 'NF == 3 { print $3 }' | sort; }

names_are_those_declared() {
    sed -nE 's/^(uint8_t|bool|struct branmuslin_[a-z]+) (branmuslin_[a-z_]+)\(.*/\2/p' include/branmuslin.h | sort >"$work/declared"
    [ -s "$work/declared" ] && diff "$work/declared" <(defined_names)
}

needed_names() { nm -u "$archive" | awk 'NF == 2 { print $2 }' | sort -u | comm -23 - <(defined_names); }

needs_nothing() { nm "$archive" >/dev/null && ! needed_names | grep -vxE 'memcpy|memmove|memset|memcmp'; }

splitter_builds() {
    installed_flags && "$cc" -std=c99 -pedantic "${strict[@]}" "${sanitized[@]}" examples/splitter.c -o "$work/splitter" "${flags[@]}"
}

# splits STATUS LINES ARGUMENT..: the splitter prints these lines, nothing else, and ends with the status.
splits() {
    local status=$1 lines=$2
    shift 2
    "$work/splitter" "$@" >"$work/out" 2>"$work/err"
    [ $? -eq "$status" ] && diff <(printf '%s' "$lines") "$work/out" && diff /dev/null "$work/err"
}

# splitter_fails STATUS TEXT ARGUMENT..: the splitter prints one line, on standard error, with the text.
splitter_fails() {
    local status=$1 text=$2
    shift 2
    "$work/splitter" "$@" >"$work/out" 2>"$work/err"
    [ $? -eq "$status" ] && [ ! -s "$work/out" ] && [ "$(wc -l <"$work/err")" -eq 1 ] && grep -F -- "$text" "$work/err"
}

whole='\x00\x2A\xC0\x05\x00\x01\xAA\xBB\xE0\xE9\x05\x11\x22\x33'
whole_lines='0 space type=0 secondary=0 apid=42 flags=3 count=5 data=2
8 encapsulation protocol=0 user=0 extension=0 header=1 content=0
9 encapsulation protocol=2 user=0 extension=0 header=2 content=3
'
more_lines='14 space type=1 secondary=1 apid=42 flags=1 count=16383 data=3
23 space type=0 secondary=0 apid=2047 flags=0 count=0 data=1
30 encapsulation protocol=6 user=5 extension=15 header=8 content=1
'
printf '%b' "$whole"'\x00\x2A' >"$work/cut.bin"
printf '%b' "$whole"'\x18\x2A\x7F\xFF\x00\x02\x00\x0A\xFF\x07\xFF\x00\x00\x00\x00\x77\xFB\x5F\x00\x00\x00\x00\x00\x09\x88' >"$work/a whole.bin"

splitter_paper() {
    splits 3 "${whole_lines}14 refused 1 2 the octets end before the header or the packet does; octets left: 2
" "$work/cut.bin" && splits 3 "$(cat "$work/out")"$'\n' "$work/cut.bin" 42 "$work/data" && cmp "$work/data" <(printf '\xAA\xBB')
}

splitter_data() {
    splits 0 "$whole_lines$more_lines" "$work/a whole.bin" 42 "$work/data" && cmp "$work/data" <(printf '\xAA\xBB\x00\x0A\xFF') &&
        splits 0 "$whole_lines$more_lines" "$work/a whole.bin" 2047 "$work/data" && cmp "$work/data" <(printf '\x77') &&
        splits 0 "$whole_lines$more_lines" "$work/a whole.bin" 2 "$work/data" && [ ! -s "$work/data" ] && splits 0 '' /dev/null
}

# Longer than the splitter's first buffer.
splitter_longest() {
    local i
    for i in 1 2 3; do printf '%b' "\\x00\\x2A\\xC0\\x0$i\\xFF\\xFF" && head -c 65536 /dev/zero | tr '\0' "$i"; done >"$work/long.bin"
    "$work/splitter" "$work/long.bin" 42 "$work/data" >"$work/out" &&
        [ "$(tail -n 1 "$work/out")" = '131084 space type=0 secondary=0 apid=42 flags=3 count=3 data=65536' ] &&
        cmp "$work/data" <(for i in 1 2 3; do head -c 65536 /dev/zero | tr '\0' "$i"; done)
}

# splitter_refusal OCTETS LINE
splitter_refusal() { printf '%b' "$1" >"$work/bad.bin" && splits 3 "0 refused $2"$'\n' "$work/bad.bin"; }

splitter_refusals() {
    splitter_refusal '\x20' '2 0 the version is neither 000 nor 111; octets left: 1' &&
        splitter_refusal '\x0F\xFF\xC0\x00\x00\x00\x00' '3 0 APID 2047 (idle) has the secondary header flag; octets left: 7' &&
        splitter_refusal '\xE9\x01' '4 1 the encapsulation length is less than its header; octets left: 2' &&
        splitter_refusal '\xEA\x00\x00\x03' '4 2 the encapsulation length is less than its header; octets left: 4' &&
        splitter_refusal '\xEB\x00\x00\x00\x00\x01\x00\x07' '5 4 the encapsulation length is over 65,542; octets left: 8' &&
        splitter_refusal '\xE4' '6 0 there is no content, and the protocol ID is not 0; octets left: 1' &&
        splitter_refusal '\xF9\x03\x00' '7 0 protocol ID 6 in a 1 or 2 octet header; octets left: 3' &&
        splitter_refusal '\xEA\x13\x00\x05\x55' '7 1 the extension is not 0, and the protocol ID is not 6; octets left: 5' &&
        splitter_refusal '\xEB\x00\x01\x00\x00\x00\x00\x09\x55' '7 2 the CCSDS field is not 0; octets left: 9' &&
        splitter_refusal '\xEB\x00\x00\x01\x00\x00\x00\x09\x55' '7 3 the CCSDS field is not 0; octets left: 9'
}

splitter_bad_apid() {
    local apid
    for apid in '' x -1 +1 ' 1' '1 ' 2048 0x2A 42a 4294967338 99999999999999999999999; do
        splitter_fails 2 "an APID is a number from 0 to 2047, not '$apid'" "$work/cut.bin" "$apid" "$work/unwritten" || return
    done
    [ ! -e "$work/unwritten" ]
}

splitter_usage() {
    splitter_fails 2 'usage: splitter FILE [APID OUTPUT]' && splitter_fails 2 'usage: ' "$work/cut.bin" 42 &&
        splitter_fails 2 'usage: ' "$work/cut.bin" 42 "$work/data" more &&
        splitter_fails 2 'OUTPUT would overwrite' "$work/cut.bin" 42 "$work/cut.bin" && [ "$(wc -c <"$work/cut.bin")" -eq 16 ]
}

splitter_unreadable() {
    splitter_fails 1 "can't read $work/nowhere: " "$work/nowhere" 42 "$work/unwritten" && [ ! -e "$work/unwritten" ] &&
        splitter_fails 1 "can't read $work: " "$work"
}

splitter_unwritable() {
    splitter_fails 1 "can't write $work/nowhere/data: " "$work/cut.bin" 42 "$work/nowhere/data" &&
        splitter_fails 1 "can't write $work: " "$work/cut.bin" 42 "$work"
}

# A full disk shows when the buffer is flushed, at the latest when the file is closed.
splitter_full() {
    local recording
    for recording in cut long; do
        "$work/splitter" "$work/$recording.bin" 42 /dev/full >"$work/out" 2>"$work/err"
        [ $? -eq 1 ] && [ "$(wc -l <"$work/err")" -eq 1 ] && grep "can't write /dev/full: " "$work/err" || return
        "$work/splitter" "$work/$recording.bin" 2>"$work/err" >/dev/full
        [ $? -eq 1 ] && [ "$(wc -l <"$work/err")" -eq 1 ] && grep "can't write standard output: " "$work/err" || return
    done
}

# The splitter that make built, since a sanitizer needs more memory than this.
splitter_no_memory() {
    dd if=/dev/zero of="$work/large" bs=1 count=0 seek=300000000 2>"$work/err" &&
        (ulimit -v "${little_memory:-100000}" && exec target/examples/splitter "$work/large") >"$work/out" 2>"$work/err"
    [ $? -eq 1 ] && [ ! -s "$work/out" ] && [ "$(wc -l <"$work/err")" -eq 1 ] && grep "can't read $work/large: " "$work/err"
}

check 'library: make' make
check 'library: make has nothing to do after make' make -q
check 'library: make without a toolchain' no_rt_for_make
check 'library: make notices what changed' changes_are_noticed
check 'library: make install builds nothing' installed_as_built
check 'library: make install to a stage, and to another LIBDIR' staged
if command -v pkg-config >/dev/null; then
    check 'library: pkg-config tells the version' version_is_told
else
    echo 'note  pkg-config is not installed: the flags are given by hand'
fi
check 'library: the header alone, C99' header_alone c99
check 'library: the header alone, C11' header_alone c11
check 'library: the header in C++11' header_in_cpp
check 'library: its global names are the functions of the header' names_are_those_declared
check 'library: it needs no other library' needs_nothing
check 'library: the tests in C' c_tests
check 'splitter: builds against the installed library' splitter_builds
check "splitter: the paper's recording" splitter_paper
check 'splitter: the data of one APID' splitter_data
check 'splitter: the longest packets' splitter_longest
check 'splitter: each refusal in words' splitter_refusals
check 'splitter: a bad APID' splitter_bad_apid
check 'splitter: a wrong call' splitter_usage
check 'splitter: a file that is missing or a folder' splitter_unreadable
check 'splitter: an output that is missing or a folder' splitter_unwritable
check 'splitter: an output that is full' splitter_full
check 'splitter: too little memory' splitter_no_memory
check 'library: make uninstall leaves nothing of it' uninstalled
