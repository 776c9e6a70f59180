#!/bin/sh
# Tries the bugs of bugs/, each in a copy of the crates: bugs.sh CRATES OUT. The campaign must find each.
crates=$(realpath "$1") out=$(realpath "$2")
cd "$(dirname "$0")" || exit 1
copy=$(mktemp -d) || exit 1
trap 'rm -rf "$copy"' EXIT
cp "$crates/../crates.txt" "$copy" || exit 1
missed=0

for edit in bugs/*.edit; do
    name=$(basename "$edit" .edit)
    rm -rf "$copy/crates"
    for crate in "$crates"/*/src; do
        crate=$(basename "$(dirname "$crate")")
        mkdir -p "$copy/crates/$crate" && cp -r "$crates/$crate/src" "$copy/crates/$crate" || exit 1
    done
    ./plant.py "$edit" "$copy" && make -s CRATES="$copy/crates" OUT="$out/$name" "$out/$name/translated" || exit 1
    if "$out/$name/translated" run --stabilizes 100000 > "$out/$name/told"; then
        missed=$((missed + 1)); echo "$name: not found"
    else
        echo "$name: found by $(grep '^seed ' "$out/$name/told" | head -1)"
    fi
done
echo "$missed not found"
[ "$missed" = 0 ]
