#!/usr/bin/env bash
# Two slips of a host are found when its code is checked: opening a session with a sheet that was only read, and
# opening two with one accepted program. Each text here is a host; a line `//slip CODE` stands for a slip in the place
# of the line above it. The host without the slip must be taken, and with it be refused by the expected error.
# Such errors come from the compiler's front end, before the prover, so `rt try`, which proves nothing, finds them.
set -eu
root=$(cd "$(dirname "$0")/../.." && pwd)
work=$(mktemp -d)
trap 'rm -rf "$work"' EXIT

# a repository of the host and the libraries below it
for name in refusal labels sheet tape model rules checker banks session; do
    mkdir -p "$work/crates/$name"
    cp -r "$root/crates/$name/src" "$root/crates/$name/specs" "$root/crates/$name/proofs" "$work/crates/$name"
    grep "^$name:" "$root/crates.txt" >>"$work/crates.txt"
done
echo "host: banks checker labels session sheet" >>"$work/crates.txt"
mkdir -p "$work/crates/host/src" "$work/crates/host/specs" "$work/crates/host/proofs"
touch "$work/crates/host/specs/Lib.antt" "$work/crates/host/proofs/Lib.antt"

compile() { # TEXT: runs the front end on the host as a program
    { cat "$1"; printf '\nfn main() {}\n'; } >"$work/crates/host/src/main.rt"
    (cd "$work/crates/host" && rt try) >"$work/errors" 2>&1
}

try() { # TEXT ERROR
    if ! compile "$root/tests/slips/$1.txt"; then
        tail -n 20 "$work/errors"
        echo "slips: $1: the host without the slip is refused"
        exit 1
    fi
    awk '/^ *\/\/slip /{ sub(/\/\/slip /, ""); held = $0; next } { if (NR > 1) print held; held = $0 } END { print held }' \
        "$root/tests/slips/$1.txt" >"$work/slip.txt"
    if compile "$work/slip.txt"; then
        echo "slips: $1: the slip passes"
        exit 1
    fi
    if ! grep -qF "$2" "$work/errors"; then
        tail -n 20 "$work/errors"
        echo "slips: $1: refused, but not by $2"
        exit 1
    fi
    echo "slips: $1: refused by $2, and the host without it passes"
}

try read_sheet_opens_no_session 'error[mismatched-types]: expected `Program'
try accepted_program_opens_one_session 'error[borrow-e0382]: use of moved value: `program'
