#!/usr/bin/env bash
# Proves and builds a program of this repository, where that is still to do, and runs it on standard input.
# usage: tools/run_program.sh NAME INPUT HELP [ARGUMENT..]
# INPUT is `typed` where the program may read a terminal, and `file` where not. HELP is what --help prints; the program
# takes no other argument. Only what the program and --help print goes to standard output.
set -euo pipefail
name=$1 input=$2 help=$3
shift 3

say() {
    printf '%s: %s\n' "$name" "$*" >&2
}

# Says of the lines of `rt run` which crate is being proved, how far it is, and after how many seconds.
show_progress() {
    local line crate=
    while IFS= read -r line; do
        case $line in
        'rt: chose --jobs '*)
            crate=${line##* }
            say "$SECONDS s: proving $crate"
            ;;
        'so far: '*)
            line=${line#so far: }
            say "$SECONDS s: $crate, ${line%%;*}"
            ;;
        'rt: '*waiting*) say "$SECONDS s: ${line#rt: }" ;;
        'linked '*) say "proved after $SECONDS s" ;;
        esac
    done
}

case $#,${1-} in
0,) ;;
1,-h | 1,--help)
    printf '%s\n' "$help"
    exit
    ;;
*)
    say "takes no argument '$1'"
    printf '%s\n' "$help" >&2
    exit 2
    ;;
esac
if ! command -v rt >/dev/null; then
    say "rt is not on PATH: it is the command of the Rattle toolchain, with which this program is proved and built."
    say "Put the toolchain's folder bin on PATH (README.md, section Toolchain)."
    exit 127
fi
if [ -t 0 ]; then
    printf '%s\n' "$help" >&2
    [ "$input" = typed ] || exit 2
fi
cd "$(dirname "$(readlink -f "$0")")/../crates/$name"
log=$(mktemp)
trap 'rm -f "$log"' EXIT
[ -e "out/$name.stamp" ] || say 'to be proved first, which takes some minutes on a fresh machine'
SECONDS=0
# Run on no input, rt proves the program and leaves it in out/. With nothing changed since, nothing is proved.
if ! rt run 2>&1 >/dev/null </dev/null | tee "$log" | show_progress; then
    tail -n 20 "$log" >&2
    say 'not proved, so not run'
    exit 1
fi
rm -f "$log"
exec "out/$name"
