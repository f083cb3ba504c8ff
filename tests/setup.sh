#!/bin/sh
# setup.sh TASK: sees that what a task needs is installed (build, test, bench or counts), and installs Debian's packages for what is missing
# (tests/packages.txt): a line for each set of them, and what apt says goes to target/setup.log, of which the end is shown where it fails.
# The Rattle toolchain itself (the command rt) has to be there.
set -eu
task=$1
top=$(cd "$(dirname "$0")/.." && pwd)
log=$top/target/setup.log
command -v rt > /dev/null || { echo "setup: the Rattle toolchain is missing: no command rt" >&2; exit 1; }

# links COMPILER FLAGS..: whether a compiler links the C program of standard input.
links() {
    probe=$(mktemp -d)
    "$@" -x c -o "$probe/program" - > /dev/null 2>&1 && linked=0 || linked=1
    rm -rf "$probe"
    return $linked
}

# found NAME: whether a command is there; gcc with C's own header, clang with its fuzzer and sanitizers, and of rustc Debian's own.
found() {
    case $1 in
    gcc) printf '#include <stdio.h>\nint main(void) { return puts("") < 0; }\n' | links gcc ;;
    fuzzer) echo 'int LLVMFuzzerTestOneInput(const char *d, unsigned long n) { return n > 9 && *d; }' | links clang -fsanitize=fuzzer,address,undefined ;;
    rustc) "$top/tests/rustc.sh" --version > /dev/null 2>&1 ;;
    *) command -v "$1" > /dev/null ;;
    esac
}

# missing: what the task needs and is not found, a line each: its name and Debian's packages that have it.
missing() {
    grep -v '^#' "$top/tests/packages.txt" | while read -r name tasks packages; do
        case ,$tasks, in *,"$task",*) found "$name" < /dev/null || echo "$name $packages" ;; esac
    done
}

# apt WORDS..: apt-get with these words, as root.
apt() {
    $as_root env DEBIAN_FRONTEND=noninteractive apt-get -q "$@" >> "$log" 2>&1 && return
    tail -n 20 "$log" >&2
    echo "setup: apt-get $1 FAILED, and target/setup.log has all that it said; needed are Debian's packages ${packages% }" >&2
    exit 1
}

wanted=$(missing)
[ -n "$wanted" ] || exit 0
packages=$(echo "$wanted" | cut -d' ' -f2- | tr ' ' '\n' | sort -u | tr '\n' ' ')
as_root='' why=''
[ "$(id -u)" = 0 ] || as_root=sudo
[ -z "$as_root" ] || command -v sudo > /dev/null || why="this is not root, and there is no sudo"
command -v apt-get > /dev/null || why="there is no apt-get"
[ -z "$why" ] || { echo "setup: $why: install these packages of Debian first: ${packages% }" >&2; exit 1; }
echo "$wanted" | while read -r name has; do echo "setup: $name is missing: installing Debian's $has"; done
mkdir -p "$top/target"
: > "$log"
apt update
# shellcheck disable=SC2086
apt install -y --no-install-recommends $packages
left=$(missing | cut -d' ' -f1 | tr '\n' ' ')
[ -z "$left" ] || { echo "setup: still missing, with Debian's packages for it installed: ${left% }" >&2; exit 1; }
