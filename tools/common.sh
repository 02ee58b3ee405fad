# Sourced by the tools and the tests: the project's folder, how a tool speaks and ends, how it takes
# its input, and how programs for x86-64 are built and run here.
# shellcheck shell=bash disable=SC2034

root=$(dirname -- "$(dirname -- "$(readlink -f -- "${BASH_SOURCE[0]}")")")
self=$(readlink -f -- "$0")
tool=${self#"$root/"}

# Compiled Rattle is x86-64, so on an Arm machine C and Rust are cross-built and emulated.
cc=(gcc)
shared_cc=(gcc)
cxx=(g++)
nm=(nm)
rust=(rustc -C linker=gcc)
emulate=()
if [ "$(uname -m)" = aarch64 ]; then
    cc=(x86_64-linux-gnu-gcc -static)
    shared_cc=(x86_64-linux-gnu-gcc)
    cxx=(x86_64-linux-gnu-g++)
    nm=(x86_64-linux-gnu-nm)
    rust=(/usr/bin/rustc --target x86_64-unknown-linux-gnu
        -C linker=x86_64-linux-gnu-gcc -C target-feature=+crt-static)
    emulate=(qemu-x86_64)
fi

# What every C file of the project is compiled with; in the tests no warning is let through.
c_words=(-std=c11 -O2 -Wall -Wextra -Wpedantic -Wconversion)

say() {
    printf '%s: %s\n' "$tool" "$*" >&2
}

# stop WORDS..: says why and ends with 2, the status of whatever is no answer
stop() {
    say "$@"
    exit 2
}

# help_or_go HELP WORDS..: prints the help and ends, where it is asked for
help_or_go() {
    case ${2:-} in
    --help | -h)
        printf '%s\n' "$1" || exit 2
        exit 0
        ;;
    esac
}

# wrong_usage HELP: shows how the tool is called, which is the help's first line
wrong_usage() {
    printf '%s (--help says more)\n' "${1%%$'\n'*}" >&2
    exit 2
}

# take_input HELP WORDS..: makes the file that is named standard input. `-` is standard input
# itself, and so is no name where a pipe or a file stands there.
take_input() {
    local help=$1
    shift
    help_or_go "$help" "$@"
    [ "${1:-}" != -- ] || shift
    if [ $# -eq 0 ] && { [ -p /dev/stdin ] || [ -f /dev/stdin ]; }; then
        set -- -
    fi
    [ $# -eq 1 ] || wrong_usage "$help"
    [ "$1" != - ] || return 0
    [ -e "$1" ] || stop "no such file: $1"
    [ ! -d "$1" ] || stop "a folder, not a file: $1"
    [ -r "$1" ] || stop "cannot be read: $1"
    exec <"$1" || exit 2
}

# need_rt: ends where rt is missing, with where to read on
need_rt() {
    command -v rt >/dev/null ||
        stop 'rt, the Rattle kit, is not on the PATH: README.md, "What it needs", says more'
}

# run_program NAME WORDS..: ends as the program of this name of target/programs/, over standard input
# and with these words. What it stands on is built first, where something has changed.
run_program() {
    "$root/tools/build" --quiet </dev/null >&2 || exit 2
    if [ ${#emulate[@]} -gt 0 ] && ! command -v "${emulate[0]}" >/dev/null; then
        "$root/tools/setup" c </dev/null >&2 || exit 2
    fi
    # A closed pipe is then a write that fails, and not the program's end.
    trap '' PIPE
    exec "${emulate[@]}" "$root/target/programs/$1" "${@:2}"
}
