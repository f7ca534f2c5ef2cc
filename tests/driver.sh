# shellcheck shell=bash
# Sourced by tests/run, tests/sanitized and tests/ports/run, after tools/machine.sh: how the driver is built, and how tests are counted.

made=target/tests
driver_sources=(driver met record trial lend facts draw make spoil make_padding make_clean make_posts make_check make_file shrink pieces peer)
passed=0
failed=0

die() {
    echo "${0##"$PWD"/}: $*" >&2
    echo '0 passed, 1 failed'
    exit 1
}

# build_driver PROGRAM COMPILER FLAG.. -- LAST..: the driver and the peer, linked with what is given last
build_driver() {
    local program=$made/$1 compiler=$2 options=() name files=()
    shift 2
    while [ "$1" != -- ]; do
        options+=("$1")
        shift
    done
    shift
    for name in "${driver_sources[@]}"; do files+=("tests/$name.c"); done
    "$compiler" -std=c99 -Wall -Wextra -Wpedantic -Werror -Iinclude "${options[@]}" -o "$program" "${files[@]}" "$@"
}

# count NAME STATUS SECONDS LOG: adds what the last line of a log says, 'N passed, M failed'
count() {
    local last
    last=$(tail -n 1 "$4")
    if [[ $last =~ ^([0-9]+)\ passed,\ ([0-9]+)\ failed$ ]] && { [ "$2" -eq 0 ] || [ "${BASH_REMATCH[2]}" -gt 0 ]; }; then
        passed=$((passed + BASH_REMATCH[1]))
        failed=$((failed + BASH_REMATCH[2]))
    else
        failed=$((failed + 1))
    fi
    echo "== $1: status $2, $3 s"
}

# try NAME COMMAND..: runs and counts
try() {
    local began=$SECONDS
    "${@:2}" 2>&1 | tee "$made/$1.log"
    count "$1" "${PIPESTATUS[0]}" $((SECONDS - began)) "$made/$1.log"
}

finish() {
    echo "$passed passed, $failed failed"
    exit $((failed > 0))
}
