#!/usr/bin/env bash
# Runs the order program on a texture and an order text in a scratch folder, and shows orders and answers side by side, of a long day the
# beginning and the end: show_day.sh PROGRAM TEXTURE ORDERS
set -euo pipefail
program=$(realpath "$1") texture=$(realpath "$2") orders=$(realpath "$3")
folder=$(mktemp -d)
trap 'rm -rf "$folder"' EXIT
cp "$texture" "$folder/master.dds"
cd "$folder"
"$program" < "$orders" > answers
paste -d '|' "$orders" answers | tr -d '\r' | awk -F '|' '{ printf "  %-44s %s\n", $1, $2 }' > table
count=$(wc -l < table)
echo "cuivakko, a texture of $(wc -c < master.dds) bytes:"
if [ "$count" -gt 60 ]; then
    sed -n '1,46p' table
    echo "  ... $((count - 58)) lines more ..."
    tail -n 12 table
else
    cat table
fi
if [ -e shipped.dds ]; then
    echo "  shipped.dds: $(cmp -l master.dds shipped.dds | wc -l) bytes differ from master.dds"
fi
