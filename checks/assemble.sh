#!/bin/sh
# The canonical text of each example listing, and the text that `search` makes of each example program,
# assemble with GNU as. The first argument is the program; without it the example listings are taken as they
# stand.
set -eu
here=$(cd "$(dirname "$0")" && pwd)
examples=$(cd "$here/../examples" && pwd)
program=${1:+$(readlink -f -- "$1")}

if ! command -v as >/dev/null 2>&1; then
    echo "assemble: skipped, as is not there"
    exit 0
fi

folder=$(mktemp -d)
trap 'rm -rf "$folder"' EXIT
count=0

assemble() {
    if ! as -o "$folder/out.o" "$1"; then
        echo "assemble: $2 does not assemble"
        exit 1
    fi
    count=$((count + 1))
}

for listing in "$examples"/*.s; do
    name=$(basename "$listing")
    if [ -n "$program" ]; then
        "$program" show "$listing" >"$folder/$name"
        if ! cmp -s "$listing" "$folder/$name"; then
            echo "assemble: $name is not its canonical text"
            exit 1
        fi
        assemble "$folder/$name" "$name"
    else
        assemble "$listing" "$name"
    fi
done

if [ -n "$program" ]; then
    for source in "$examples"/*.json; do
        name=$(basename "$source" .json)
        status=0
        (cd "$folder" && "$program" search "$source" "$name.s" >/dev/null 2>&1) || status=$?
        [ "$status" -eq 0 ] || { echo "assemble: search of $name.json ends with $status"; exit 1; }
        assemble "$folder/$name.s" "the listing of $name.json"
    done
fi

echo "assemble: $count texts assemble"
