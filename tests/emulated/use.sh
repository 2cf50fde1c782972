# For a machine that is not x86-64, the only kind that the kit builds programs and archives for: the tests in C, and the second program's calls of the
# library, are compiled for x86-64, and everything for x86-64 runs in emulation. Sourced by .ci/run before any test. Every test is run; only leaks of the
# programs in C are not looked for, since LeakSanitizer does not work in emulation.
emulated=yes
library_target=x86_64-unknown-linux-gnu
packages=(gcc-x86-64-linux-gnu g++-x86-64-linux-gnu qemu-user-static binfmt-support libc6:amd64 libubsan1:amd64 libclang-rt-14-dev:amd64
    rustc-web libstd-rust-web-dev:amd64)

# Packages that are missing are installed in continuous integration alone, not behind a person's back.
install_packages() {
    dpkg-query -W "${packages[@]}" >/dev/null 2>&1 && return
    [ "${CI-}" = true ] && dpkg --add-architecture amd64 && apt-get update &&
        DEBIAN_FRONTEND=noninteractive apt-get install -y --no-install-recommends "${packages[@]}"
}

# Programs for x86-64 are started like any other.
emulate() {
    install_packages && { [ -e /proc/sys/fs/binfmt_misc/qemu-x86_64 ] || update-binfmts --enable qemu-x86_64; } &&
        sanitizers_emulator=${sanitizers_emulator:-$(dirname "$(dirname "$(readlink -f "$(command -v rt)")")")/on/$(uname -m)/toolchain/bin/qemu-x86_64} &&
        [ -x "$sanitizers_emulator" ]
}

if ! emulate >"$work/log" 2>&1 </dev/null; then
    tail -n 20 "$work/log"
    echo "FAIL  this machine is $(uname -m), and programs for x86-64 can't be emulated here; Debian's packages for that: ${packages[*]}"
    exit
fi
echo "note  this machine is $(uname -m): what is for x86-64 runs in emulation, and leaks are not looked for"
export sanitizers_emulator ASAN_OPTIONS=detect_leaks=0
# The kit builds for x86-64-v2, more than the emulator's plainest machine has.
export QEMU_CPU=max
export CC=$PWD/tests/emulated/cc CXX=x86_64-linux-gnu-g++ CLANG=$PWD/tests/emulated/clang
# The emulator itself takes some 250 MB; and there the sanitizer's report of a bad access breaks off after its first line.
little_memory=350000
bad_access=AddressSanitizer:DEADLYSIGNAL
