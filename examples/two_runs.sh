#!/bin/sh
# What one run adds is read in the next one: the samples are loaded, a territory is added, published
# and saved, and a second run answers from what was saved. The journal stays in a folder that is
# made for it; the name of its file is printed last.
set -eu
examples=$(dirname "$0")
folder=$(mktemp -d)
"$examples/../oldstyle" serve --journal "$examples/samples.journal" --save "$folder/lands.journal" \
    < "$examples/added.jsonl"
echo '{"op":"read","reader":1,"code":"VE","year":1501,"month":12,"day":25}' |
    "$examples/../oldstyle" serve --journal "$folder/lands.journal"
echo "$folder/lands.journal"
