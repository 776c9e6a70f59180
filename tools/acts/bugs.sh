#!/bin/sh
# Tries wrong bodies in copies of the crates: bugs.sh CRATES OUT. They are the must-fail edits of the crates that
# NecessaryGraph runs on, those kept in planted/, and bugs/. The acts must find each.
crates=$(realpath "$1") out=$(realpath "$2")
cd "$(dirname "$0")" || exit 1
copy=$(mktemp -d) || exit 1
trap 'rm -rf "$copy"' EXIT
cp "$crates/../crates.txt" "$copy" || exit 1
missed=0

# try CRATE EDIT
try() {
    name=$(basename "$2" .edit)
    rm -rf "$copy/crates" && mkdir "$copy/crates" || exit 1
    for below in inc_value point_map slot_map row_map link_table recompute_heap necessity height_order point_rows necessary_graph; do
        mkdir "$copy/crates/$below" && cp -r "$crates/$below/src" "$copy/crates/$below" || exit 1
    done
    ../campaign/plant.py "$2" "$copy/crates/$1" && make -s CRATES="$copy/crates" OUT="$out/$name" || exit 1
    if "$out/$name/acts" > "$out/$name/told"; then
        missed=$((missed + 1)); echo "$1: $name: not found"
    else
        found=$(grep '^seed ' "$out/$name/told" | cut -d: -f2-)
        echo "$1: $name: found after $(tail -1 "$out/$name/told" | cut -d' ' -f1) acts:$found"
    fi
}

for crate in point_map slot_map row_map recompute_heap height_order point_rows necessary_graph; do
    for edit in "$crates/$crate"/must-fail/*.edit "$crates/../planted/$crate"/*.edit; do
        [ ! -f "$edit" ] || try "$crate" "$edit"
    done
done
try necessary_graph bugs/sweep_stops.edit
echo "$missed not found"
[ "$missed" = 0 ]
