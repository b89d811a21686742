#!/bin/sh
# Writes the image of a card's files to standard output: image.sh FOLDER. The files are those in the folder that are named
# EF.COM, DG1 .. DG16 and EF.SOD. One that is not there is absent on the card; other names are passed over,
# and told on the error stream.
set -eu
[ $# -eq 1 ] || { echo "usage: image.sh FOLDER" >&2; exit 2; }
names='EF.COM DG1 DG2 DG3 DG4 DG5 DG6 DG7 DG8 DG9 DG10 DG11 DG12 DG13 DG14 DG15 DG16 EF.SOD'

fail() {
    echo "image.sh: $1" >&2
    exit 1
}

byte() {
    printf "\\$(printf %03o "$1")"
}

[ -d "$1" ] || fail "$1 is no folder"

for file in "$1"/*; do
    case " $names " in
    *" ${file##*/} "*) ;;
    *) [ ! -e "$file" ] || echo "image.sh: passed over: $file" >&2 ;;
    esac
done

# All sizes are looked at before anything is written.
found=no
for name in $names; do
    file=$1/$name
    [ -e "$file" ] || continue
    found=yes
    size=$(wc -c < "$file") || fail "$file cannot be read"
    [ "$size" -le 32767 ] || fail "$file has $size bytes, and a file has at most 32767"
done
[ $found = yes ] || fail "$1 has no file named EF.COM, DG1 .. DG16 or EF.SOD"

number=0
for name in $names; do
    file=$1/$name
    if [ -e "$file" ]; then
        size=$(wc -c < "$file")
        byte $number
        byte $((size / 256))
        byte $((size % 256))
        cat "$file"
    fi
    number=$((number + 1))
done
