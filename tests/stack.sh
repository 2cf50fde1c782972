# The stack that the library's calls use. Octets are copied by way of an array that the compiler is to make vanish (put_at_once in crates/putting); no
# answer would change if it stayed, so that only these tests tell. Without sanitizers, which need stack of their own; the other flags and the archive are
# those of tests/library.sh.

# deepest_builds PROGRAM SOURCE_OR_FLAG..: the program that measures every call, with these put between it and the archive.
deepest_builds() {
    local program=$1
    shift
    "$cc" -std=c11 "${strict[@]}" -O2 -Iinclude tests/stack/deepest.c "$@" "$archive" -o "$program"
}

shallow() { deepest_builds "$work/deepest" && "$work/deepest"; }

# With tests/stack/wrong.c, every call of a function that it wraps is too deep, and no other is.
too_deep='branmuslin_write_space (the longest data)
branmuslin_write_encapsulation (the longest content)
branmuslin_take_packet (the longest unsegmented one)
branmuslin_take_packet (the longest that is held)
branmuslin_take_packet (the last of the longest unit)
branmuslin_take_frame (the most that comes out)
branmuslin_take_frame (a piece that goes on)
branmuslin_take_frame (a new piece)'

array_is_found() {
    local wraps
    mapfile -t wraps < <(sed -nE 's/^WRAPPED\([^,]*, ([a-z_]+),.*/-Wl,--wrap=branmuslin_\1/p' tests/stack/wrong.c)
    deepest_builds "$work/deepest-wrong" tests/stack/wrong.c "${wraps[@]}" || return
    "$work/deepest-wrong" 2>"$work/err"
    [ $? -eq 1 ] && cat "$work/err" &&
        diff <(sed 's/^/too deep: /; s/$/ used N octets of stack, and may use 8192/' <<<"$too_deep") <(sed -E 's/ [67][0-9]{4} / N /' "$work/err")
}

# Each object of the archive copies octets, and needs memmove where the array vanished; copies that became loops would not need it.
copies_by_memmove() {
    nm "$archive" >/dev/null && diff <(ar t "$archive" | sort) <(nm -A -u "$archive" | sed -nE 's/.*:([^:]+): +U memmove$/\1/p' | sort)
}

check 'stack: no call of the library goes deeper than 8,192 octets' shallow
check 'stack: an array that copies go through is found' array_is_found
check 'stack: the library copies by memmove' copies_by_memmove
