#!/bin/sh
# Tries the wrong bodies in tools/more-must-fail/CRATE, which the gate does not try: the prover must refuse each.
#
#   tools/more_must_fail.sh CRATE [WORD]
#
# WORD takes those whose names hold it. It works on a clean clone of the last commit in a folder of its own.
set -eu

if [ $# -lt 1 ]; then
    sed -n '2,6s/^# \{0,1\}//p' "$0" >&2
    exit 2
fi
crate=$1
word=${2:-}

top=$(git -C "$(dirname "$0")" rev-parse --show-toplevel)
copy=$(mktemp -d)
trap 'rm -rf "$copy"' EXIT
git clone -q "$top" "$copy/repository"
cd "$copy/repository"

rm -f crates/*/must-fail/*.edit
mkdir -p "crates/$crate/must-fail"
cp "tools/more-must-fail/$crate/"*"$word"*.edit "crates/$crate/must-fail/"
rt must-fail "$crate"
