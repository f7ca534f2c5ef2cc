# shellcheck shell=bash disable=SC2034  # what is set here, those who source it use
# What the scripts need of this machine: the library brought up to date, compilers, emulators, the kit's tools.
#
# Sourced by .ci/run, cli/build, ports/build, bench/run, tests/run, tests/sanitized and tests/ports/run, at the top of the repository. Programs are
# built for x86_64, which the proved library is code for, or for aarch64, which a port is code for. On a machine of that kind they run as
# they are, on the other under qemu-user. What is missing is installed with apt-get.

machine=$(uname -m)
library=target/staticlib/libkitegimlet.a
port=target/ports/libkitegimlet-aarch64.a
wasm=target/ports/kitegimlet.wasm

die() {
    echo "${0##"$PWD"/}: $*" >&2
    exit 2
}

# ---- Packages ----

apt_get() { "${as_root[@]}" apt-get -o DPkg::Lock::Timeout=300 "$@"; }

apt_install() { apt_get install -y --no-install-recommends "$@"; }

# install PACKAGE..
install() {
    as_root=()
    if [ "$(id -u)" -ne 0 ]; then as_root=(sudo); fi
    command -v apt-get >/dev/null || die "please install $*"
    echo "installing $*" >&2
    mkdir -p target
    apt_install "$@" >target/apt.log 2>&1 || { apt_get update && apt_install "$@"; } >target/apt.log 2>&1 ||
        die "please install $*: apt-get could not, target/apt.log says why"
}

# need COMMAND PACKAGE..
need() { command -v "$1" >/dev/null || install "${@:2}"; }

# ---- Compilers and emulators ----

# links COMPILER FLAG..: whether a small program can be built with them
links() { echo 'int main(void) { return 0; }' | "$1" "${@:2}" -x c -o /dev/null - 2>/dev/null; }

# runs COMPILER FLAG..: whether that program ends well here
runs() {
    local program status=0
    program=$(mktemp)
    echo 'int main(void) { return 0; }' | "$1" "${@:2}" -x c -o "$program" - && "$program" 2>/dev/null || status=1
    rm -f "$program"
    return $status
}

# tools_for x86_64|aarch64: sets compiler, for_target (its flags) and emulator (words before a program)
tools_for() {
    local triple=$1-linux-gnu name=$1
    case $machine in x86_64 | aarch64) ;; *) die "no way to run the library on $machine" ;; esac
    if [ "$1" = "$machine" ]; then
        compiler=gcc for_target=() emulator=()
        links gcc || install gcc libc6-dev
        return
    fi
    compiler=$triple-gcc for_target=(-static) emulator=("qemu-$1")
    case $1 in x86_64) name=amd64 ;; aarch64) name=arm64 ;; esac
    links "$compiler" -static || install "gcc-${triple/_/-}" "libc6-dev-$name-cross"
    need "qemu-$1" qemu-user
}

# find_kit: sets kit, the folder of the proof tools, with bin/ and toolchain/bin/
find_kit() { kit=$(dirname "$(dirname "$(readlink -f "$(command -v rt)")")"); }

# ---- The library ----

# What the library depends on, as one number: its sources with their proofs, and the kit.
sources_sum() {
    {
        rt version
        cat crates.txt
        find crates -type f \( -path '*/src/*' -o -path '*/specs/*' -o -path '*/proofs/*' \) -exec sha256sum {} + | sort
    } | sha256sum | cut -d' ' -f1
}

# stamp FILE..: what a build was made of and what it made, for is_fresh next time
stamp() { { sources_sum; sha256sum "$@"; } 2>/dev/null | sha256sum; }
is_fresh() { [ -f "$1" ] && [ "$(cat "$1")" = "$(stamp "${@:2}")" ]; }

library_is_fresh() { is_fresh target/staticlib/stamp "$library"; }

# Proves and builds the library where anything changed since it was built.
bring_library() {
    command -v rt >/dev/null || { [ -f "$library" ] && return; } || die "$library is missing, and so is rt, which builds it"
    if library_is_fresh; then return; fi
    prove_library
    build_library
}

# What .ci/run notes once `rt ci` has passed, and whether all stands as that left it, also the libraries, to which it gives no stamp.
note_proved() { mkdir -p target && sources_sum >target/proved; }
proved_by_ci() {
    local name
    [ -f target/proved ] && [ "$(cat target/proved)" = "$(sources_sum)" ] || return
    if compgen -G 'crates/*/out/rlib/stamp' >/dev/null; then return 1; fi
    for name in $(crates_below); do [ -d "crates/$name/out/rlib/$name.rlib" ] || return; done
}

# The crates that the library leans on.
crates_below() { sed -n 's/^kitegimlet staticlib: *//p' crates.txt; }

# Proves the library from nothing, over the crates below it, which `rt check` proves where `rt ci` has not.
prove_library() {
    echo 'proving and building the library: some minutes the first time' >&2
    proved_by_ci || logged target/staticlib/log env -C crates/kitegimlet rt check
    rm -rf target/staticlib/checked
    logged target/staticlib/log tools/rattle check kitegimlet --cpu=x86-64 --jobs 2 -o "$PWD/target/staticlib/checked"
    grep '^logic=' target/staticlib/log
}

# compile TOOLS ARCHIVE: makes the archive of what was proved, for every processor of the kind, with the kit's tools or others
compile() {
    logged "${2%.a}.log" tools/rattle build kitegimlet --cpu=x86-64 --crate-checked "$PWD/target/staticlib/checked" \
        --toolchain "$1" -o "$PWD/$2"
}

build_library() {
    find_kit
    compile "$kit/toolchain" "$library"
    stamp "$library" >target/staticlib/stamp
}

# Proves and builds the report program, crates/report/out/report, where `rt ci` has not.
bring_report() {
    if proved_by_ci && [ -x crates/report/out/report ]; then return; fi
    logged target/report.log env -C crates/report rt run </dev/null
}

# logged LOG COMMAND..: what it says goes to the log, whose end is shown where it fails
logged() {
    mkdir -p "$(dirname "$1")"
    if "${@:2}" >"$1" 2>&1; then return; fi
    tail -n 20 "$1" >&2
    die "this failed, $1 says how: ${*:2}"
}

# The library, and on Arm its port, where the kit makes one.
bring_native() {
    case $machine in
    aarch64) ports/build ;;
    *) bring_library ;;
    esac
}
