# The gate itself: with a toolchain whose proofs fail, and with none, it ends with its line and a status that isn't 0.
gate_fails() {
    rm -rf "$work/gate" && mkdir -p "$work/gate/bin" && cp -R .ci tests README.md "$work/gate" && rm -rf "$work/gate/tests/gate.sh" &&
        printf '#!/bin/sh\necho "0 passed, 1 failed"\nexit 1\n' >"$work/gate/bin/rt" && chmod +x "$work/gate/bin/rt"
    PATH="$1" bash "$work/gate/.ci/run" >"$work/gate/log" 2>&1
    local status=$?
    tail -n 3 "$work/gate/log"
    [ "$status" -ne 0 ] && tail -n 1 "$work/gate/log" | grep -qE '^[0-9]+ passed, [1-9][0-9]* failed$'
}

# On a machine that is not x86-64: where a package is missing, the gate says what it needs, and installs nothing. In the copy that was made last.
gate_names_packages() {
    ln -sf "$(type -P false)" "$work/gate/bin/dpkg-query" && ! env -u CI PATH="$work/gate/bin:$PATH" bash "$work/gate/.ci/run" >"$work/gate/log" 2>&1 &&
        diff <(sed -E 's/^(FAIL .*: )[a-z].*/\1/' "$work/gate/log") \
            <(printf '%s\n' "FAIL  this machine is $(uname -m), and programs for x86-64 can't be emulated here; Debian's packages for that: " '0 passed, 1 failed')
}

check 'the gate fails where the proofs fail' gate_fails "$work/gate/bin:$PATH"
check 'the gate fails where there is no toolchain' gate_fails /usr/bin:/bin
[ -z "${emulated-}" ] || check 'the gate names the packages that it needs' gate_names_packages
