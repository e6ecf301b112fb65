#!/bin/sh
# Makes the kept corpus anew: fuzz/renew.sh TARGET ... Of what is kept and what was found
# since, the inputs with a name of their own stay, and of the others those that cover most.
set -e
most=32
for target; do
    kept=fuzz/corpus/$target
    new=target/fuzz/renewed/$target
    rm -rf "$new"
    mkdir -p "$new" "$kept" target/fuzz/corpus/"$target"
    # libFuzzer's names are hexadecimal
    find "$kept" -type f ! -regex '.*/[0-9a-f]*' -exec cp {} "$new" ';'
    target/fuzz/"$target" -set_cover_merge=1 -use_counters=0 -max_len=4096 "$new" "$kept" \
        target/fuzz/corpus/"$target" >target/fuzz/"$target".log 2>&1
    # it writes first what covers most
    ls -tr "$new" | tail -n +$((most + 1)) | while read -r name; do
        rm "$new/$name"
    done
    rm -rf "$kept"
    mv "$new" "$kept"
    echo "$target: $(ls "$kept" | wc -l) inputs, $(cat "$kept"/* | wc -c) bytes"
done
