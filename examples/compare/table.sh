#!/bin/sh
# Places designs on several architectures with many seeds, and prints a table of the mean and the best cost:
#     sh compare/table.sh FOLDER .. [-- OPTION OF vplace place ..]
# Each folder is an architecture: it has NAME.arch and NAME.net for each design, as from_verilog/flow.sh makes them in out/k4 and out/k6.
# DESIGNS names the designs; without it, they are those that each folder has. SEEDS, JOBS, PIECE and OUT are those of seeds/run.sh, which
# places the seeds: after a kill the same words go on.
set -u
export LC_ALL=C

fail() {
    echo "table.sh: $*" >&2
    exit 2
}

here=$(dirname -- "$0")
folders=0
for word in "$@"; do
    [ "$word" != -- ] || break
    [ -d "$word" ] || fail "there is no folder $word"
    folders=$((folders + 1))
done
[ "$folders" -gt 0 ] || fail 'what it takes: FOLDER .. [-- OPTION OF vplace place ..]'

# The designs that each folder has.
designs=${DESIGNS:-}
if [ -z "$designs" ]; then
    for file in "$1"/*.net; do
        name=${file##*/}
        name=${name%.net}
        at=0
        for folder in "$@"; do
            at=$((at + 1))
            if [ "$at" -gt "$folders" ]; then break; fi
            if ! [ -f "$folder/$name.net" ] || ! [ -f "$folder/$name.arch" ]; then continue 2; fi
        done
        case $name in *' '*) ;; *) designs="$designs $name" ;; esac
    done
    [ -n "$designs" ] || fail 'no design is in each folder'
fi

told=$(mktemp) || exit 2
trap 'rm -f "$told"' EXIT
trap 'exit 1' HUP INT TERM
status=0
line='%-12s %-12s %6s %9s %5s %14s %14s\n'
# The line is a form.
# shellcheck disable=SC2059
printf "$line" design architecture blocks array seeds mean best
for name in $designs; do
    at=0
    for folder in "$@"; do
        at=$((at + 1))
        if [ "$at" -gt "$folders" ]; then break; fi
        folder=${folder%/}
        # The options, without the folders before them.
        (
            shift "$folders"
            if [ "${1-}" = -- ]; then shift; fi
            sh "$here/../seeds/run.sh" "$folder/$name.arch" "$folder/$name.net" "$@"
        ) > "$told" || status=1
        best=$(sed -n 's/^best: .* cost .*: //p' "$told")
        if [ -n "$best" ]; then
            head -q -n 1 "${best%/best.place}"/seed*.report | head -n 1 | cat - "$told" |
                awk -v line="$line" -v name="$name" -v folder="${folder##*/}" '
                $1 == "blocks" { blocks = $2; array = $10 "x" $12 }
                # In ten-thousandths, as whole numbers.
                $1 == "seed" { cost = $4; sub(/\./, "", cost); sum += cost; if (!seeds++ || cost + 0 < best) best = cost + 0 }
                function units(cost) { return sprintf("%d.%04d", int(cost / 10000), cost % 10000) }
                END { printf line, name, folder, blocks, array, seeds, units(int(sum / seeds)), units(best) }'
        fi
    done
done
exit "$status"
