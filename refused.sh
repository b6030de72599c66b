#!/bin/sh
# Tries the programs that the compiler must refuse, one for each crates/NAME/refused/*.edit, in a copy of the repository.
# With a word, as `refused.sh edits`, those of crates/NAME/edits/*.edit: further must-fail edits, which the gate leaves out
# to save time.
#
# An edit is a file of lines:
#   file: PATH     the file of the crate that it changes
#   old: TEXT      what stands there, exactly once; under refused/, several such lines are lines that follow each other
#   new: TEXT      what is put in its place, likewise
#   error: NAME    under refused/, the first error that the compiler must name
# Those under edits/ are as `rt must-fail` reads them: each old: and each new: is one line, and further pairs apply to what
# the earlier ones made. The prover must refuse each, at something that the code has to keep.
#
# Prints a line for each edit. Exit status: 0 if each was refused as it must be, 1 if not, 2 if nothing could be tried.
set -u

root=$(cd "$(dirname "$0")" && pwd -P) || exit 2
kind=${1:-refused}
copy=$(mktemp -d) || exit 2
trap 'rm -rf "$copy"' EXIT
trap 'exit 2' HUP INT TERM

# The sources alone: what checks kept, on this machine, of crates with the same text is found by rt itself.
mkdir "$copy/crates" && cp "$root/crates.txt" "$copy/" || exit 2
[ ! -f "$root/HANDLES" ] || cp "$root/HANDLES" "$copy/" || exit 2
for crate in "$root"/crates/*/; do
    name=$(basename "$crate")
    mkdir "$copy/crates/$name" || exit 2
    for part in src specs proofs; do
        [ ! -d "$crate$part" ] || cp -r "$crate$part" "$copy/crates/$name/" || exit 2
    done
done

# The lines of an edit that begin with a word.
lines() { # WORD EDIT
    sed -n "s/^$1: //p" "$2"
}

# Writes a file with the one place that holds $OLD changed to $NEW; fails where there is no such place, or a second.
changed() { # FILE
    awk '
        { text = text $0 "\n" }
        END {
            old = ENVIRON["OLD"]; at = index(text, old)
            if (old == "" || at == 0) exit 1
            rest = substr(text, at + length(old))
            if (index(rest, old) > 0) exit 1
            printf "%s%s%s", substr(text, 1, at - 1), ENVIRON["NEW"], rest
        }' "$1"
}

# Tries one program that must not compile, and says what came of it.
try() { # EDIT
    crate=$(basename "$(dirname "$(dirname "$1")")")
    name=$crate/$(basename "$1" .edit)
    file=crates/$crate/$(lines file "$1")
    want=$(lines error "$1")
    if ! OLD=$(lines old "$1") NEW=$(lines new "$1") changed "$root/$file" >"$copy/edited"; then
        echo "BAD EDIT: $name: its old text does not stand exactly once in $file"
        return 1
    fi
    cp "$copy/edited" "$copy/$file"
    (cd "$copy/crates/$crate" && rt check) >"$copy/said" 2>&1
    ended=$?
    cp "$root/$file" "$copy/$file"
    first=$(grep -m 1 -o 'error\[[^]]*\].*' "$copy/said" | cut -c1-120)
    case $ended:$first in
    1:"error[$want]"*) echo "refused: $name: $first" ;;
    *:error*) echo "ANOTHER ERROR: $name: wanted error[$want], met $first"; return 1 ;;
    *) echo "NOT REFUSED: $name: $(tail -n 1 "$copy/said" | cut -c1-200)"; return 1 ;;
    esac
}

# Has rt try the further must-fail edits of all crates that have some, and says what came of each. What it refuses for a
# name that is gone, or only by a limit of its own, shows nothing of what the code keeps, and so is no refusal here.
try_further() {
    set --
    for edit in "$root"/crates/*/edits/*.edit; do
        [ -f "$edit" ] || continue
        crate=$(basename "$(dirname "$(dirname "$edit")")")
        mkdir -p "$copy/crates/$crate/must-fail" && cp "$edit" "$copy/crates/$crate/must-fail/" || return 2
        case " $* " in *" $crate "*) ;; *) set -- "$@" "$crate" ;; esac
    done
    [ $# -gt 0 ] || { echo "no edit to try under crates/*/edits/"; return 2; }
    # Where a crate does not prove as it stands, every edit of it would be refused.
    for crate in "$@"; do
        (cd "$copy/crates/$crate" && rt check) >"$copy/said" 2>&1 && continue
        echo "nothing tried: $crate is not proved as it stands: $(tail -n 1 "$copy/said" | cut -c1-200)"
        return 2
    done
    (cd "$copy" && rt must-fail "$@") >"$copy/said" 2>&1
    ended=$?
    cut -c1-300 "$copy/said"
    tried=$(find "$copy"/crates/*/must-fail -name '*.edit' | wc -l)
    good=$(grep -cE '^rt: must-fail [^ ]+: refused, as it must be(: |$)' "$copy/said")
    echo "further must-fail edits: $good of $tried refused at what the code must keep"
    [ "$ended" -eq 0 ] && [ "$good" -eq "$tried" ]
}

if [ "$kind" = edits ]; then
    try_further
    exit $?
fi
status=0
tried=0
for edit in "$root"/crates/*/"$kind"/*.edit; do
    [ -f "$edit" ] || continue
    tried=$((tried + 1))
    try "$edit" || status=1
done
[ "$tried" -gt 0 ] || { echo "no edit to try under crates/*/$kind/"; exit 2; }
exit $status
