#!/usr/bin/env bash
# Builds the library and both callers, and runs them on sample cards; what they print must be examples/expected. Before that,
# image.sh must make the clean card's image from the files in examples/card.
set -eu
cd "$(dirname "$0")/.."
out=$(mktemp -d)
trap 'rm -rf "$out"' EXIT
(cd crates/c_api && rt lib) > "$out/log" 2>&1 || { tail "$out/log"; exit 1; }
lib=crates/c_api/out
cc -std=c99 -O2 -Wall -Wextra -pedantic -Iinclude examples/sheet.c "$lib/libc_api.a" -o "$out/sheet_c"
rustc -O --edition 2024 examples/sheet.rs -o "$out/sheet_rs" -L "$lib" -l static=c_api

# A TD3 card with EF.COM, DG1, DG2 and EF.SOD; the same with 7 for 6 behind the number; a cut one; an empty one; one with a
# byte more than an image has at most.
card() {
    printf '\000\000\026\140\024\137\001\0040107\137\066\006040000\134\002\141\165'
    printf '\001\000\135\141\133\137\037\130P<UTOERIKSSON<<ANNA<MARIA<<<<<<<<<<<<<<<<<<<'
    printf 'L898902C3%sUTO7408122F1204159ZE184226B<<<<<10' "$1"
    printf '\002\000\031\165\027\177\141\024\002\001\001\177\140\016\241\010\207\002\001\001\210\002\000\010\137\056\001\252'
    printf '\021\000\006\167\004\060\002\005\000'
}
card 6 > "$out/clean"
card 7 > "$out/digit"
card 6 | head -c 157 > "$out/cut"
: > "$out/empty"
head -c 589861 /dev/zero > "$out/long"
examples/image.sh examples/card | cmp - "$out/clean"
echo "image.sh made the image of the clean card"

for caller in sheet_c sheet_rs; do
    for arguments in "3 0003 clean" "1 0003 clean" "3 0003 digit" "3 0003 cut" "4 0003 clean" "4 0003 cut" \
        "3 0003 empty" "3 0003 long"; do
        set -- $arguments
        echo "kind $1, set $2, the $3 card:"
        "$out/$caller" "$1" "$2" "$out/$3" 2>&1 || true
    done > "$out/$caller.txt"
    diff examples/expected "$out/$caller.txt"
    echo "$caller printed what is expected"
done
