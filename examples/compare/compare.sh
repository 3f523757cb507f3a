#!/bin/sh
# Places the designs of a table again, and says which placements are not those that are pinned there:
#     sh compare/compare.sh [TABLE]            compares; the status is 0 only if all are the same
#     sh compare/compare.sh --pin [TABLE]      prints the table with the checksums and costs of now
# README.md says what a table holds; without a name it is the one beside this script.
set -uf
export LC_ALL=C

fail() {
    echo "compare.sh: $*" >&2
    exit 2
}

pins=''
if [ "${1-}" = --pin ]; then
    pins=yes
    shift
fi
table=${1:-$(dirname -- "$0")/pins}
[ -f "$table" ] || fail "there is no table $table"
for needed in vplace sha256sum; do
    command -v "$needed" > /dev/null || fail "$needed is not on the path"
done
scratch=$(mktemp -d) || exit 2
trap 'rm -rf "$scratch"' EXIT
trap 'exit 1' HUP INT TERM

# Places a design, and leaves its checksum and its cost in `sum` and `cost`. The placer is called in the design's folder, so that the header
# of the placement has the same names wherever the call comes from.
place() {
    design=$1 name=${1##*/}
    shift
    (cd -- "$(dirname -- "$table")/$(dirname -- "$design")" &&
        vplace place --arch "$name.arch" --net "$name.net" --out "$scratch/placement" --workers 1 "$@") > "$scratch/report" || return
    sum=$(sha256sum < "$scratch/placement" | cut -d ' ' -f 1)
    cost=$(tail -n 1 "$scratch/report" | cut -d ' ' -f 3)
}

# Says how a placement compares with its line of the table.
judge() {
    if [ "$sum" = "$1" ] && [ "$cost" = "$2" ]; then
        echo "same     $cost $3"
    elif [ "$cost" = "$2" ]; then
        echo "changed  $cost $3: other sites or names at the same cost"
    else
        echo "changed  $cost $3: it was $2"
    fi
}

same=0 changed=0
while read -r old_sum old_cost design options || [ -n "$old_sum" ]; do
    case $old_sum in
    '' | '#'*)
        [ -z "$pins" ] || echo "$old_sum${old_cost:+ $old_cost}${design:+ $design}${options:+ $options}"
        continue
        ;;
    esac
    # The options are words.
    # shellcheck disable=SC2086
    if ! place "$design" $options; then
        echo "failed   $design${options:+ $options}"
        changed=$((changed + 1))
    elif [ -n "$pins" ]; then
        echo "$sum $cost $design${options:+ $options}"
    else
        judge "$old_sum" "$old_cost" "$design${options:+ $options}"
        if [ "$sum" = "$old_sum" ] && [ "$cost" = "$old_cost" ]; then same=$((same + 1)); else changed=$((changed + 1)); fi
    fi
done < "$table"
[ -n "$pins" ] || echo "compare: $same same, $changed changed"
[ "$changed" -eq 0 ] && [ -n "$pins$same" ]
