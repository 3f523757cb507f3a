#!/bin/sh
# Places designs with vplace and with nextpnr-generic, on the same array without timing, and prints the mean of three seeds for each: the cost
# that `vplace check` gives, the plain half perimeter, and processor seconds.
# usage: [PROGRAM=PROGRAM] [SEEDS='1 2 3'] bench/peers.sh [DESIGN..]
# A design is one of examples, or /PATH/NAME for NAME.arch and NAME.net. PROGRAM is by default the one that `make program` built; it runs with
# one worker. nextpnr gets the blocks of the netlist as cells, so it packs nothing, and the nets that are not global. What is not installed is
# said. arachne-pnr is not asked: it knows no arrays but those of three iCE40 chips, with eight tables in a tile.
set -eu
export LC_ALL=C
top=$(cd "$(dirname "$0")/.." && pwd)
program=$(realpath "${PROGRAM:-$top/crates/vplace/out/vplace}")
if [ ! -x "$program" ]; then
    echo "there is no program $program: make program builds it" >&2
    exit 2
fi
[ $# -gt 0 ] || set -- c880_ble grom_ble picorv32_cl4
work=$(mktemp -d)
trap 'rm -rf "$work"' EXIT
trap 'exit 1' HUP INT TERM
# suggest.sh looks for vplace on the path.
ln -s "$program" "$work/vplace"
PATH=$work:$PATH
has_nextpnr=
if command -v nextpnr-generic > "$work/log"; then
    has_nextpnr=yes
else
    echo 'nextpnr-generic is not installed: as root, apt-get install -y nextpnr-generic' >&2
fi
cd "$top/examples"
peers() {
    python3 "$top/bench/peers.py" "$@"
}

# Prices a placement, and adds it to what `row` sums up.
price() {
    cost=$(vplace check --arch "$design.arch" --net "$design.net" --place "$1" | awk '$1 == "cost" { print $2 }')
    echo "$cost $(peers length "$design.net" "$1") $(cat "$work/seconds")" >> "$work/prices"
}

row() {
    awk -v design="$name" -v placer="$1" '{ cost += $1; length_ += $2; seconds += $3 }
        END { printf "%-14s %-22s %12.1f %10.1f %8.2f\n", design, placer, cost / NR, length_ / NR, seconds / NR }' "$work/prices"
    rm "$work/prices"
}

ours() {
    title=$1
    shift
    for seed in ${SEEDS:-1 2 3}; do
        peers timed "$work/seconds" vplace place --arch "$design.arch" --net "$design.net" --out "$work/place" --seed "$seed" --workers 1 "$@" > "$work/log"
        price "$work/place"
    done
    row "$title"
}

theirs() {
    for seed in ${SEEDS:-1 2 3}; do
        peers timed "$work/seconds" nextpnr-generic --json "$work/circuit.json" --pre-pack "$work/array.py" --no-tmdriv --no-route --placer "$2" \
            --seed "$seed" --write "$work/written.json" > "$work/log" 2>&1 || {
            tail -n 5 "$work/log" >&2
            exit 1
        }
        peers placement "$design.arch" "$design.net" "$work/place" "$work/written.json" > "$work/theirs"
        price "$work/theirs"
    done
    row "$1"
}

printf '%-14s %-22s %12s %10s %8s\n' design placer cost length seconds
for design in "$@"; do
    name=$(basename "$design")
    ours 'vplace'
    suggested=$(sh schedule/suggest.sh "$design.arch" "$design.net" - --workers 1 2> "$work/log")
    # The options are words.
    # shellcheck disable=SC2086
    ours 'vplace, suggested' $suggested
    # shellcheck disable=SC2086
    ours 'vplace, four times' ${suggested% *} $((4 * ${suggested##* }))
    if [ -n "$has_nextpnr" ]; then
        peers circuit "$design.arch" "$design.net" > "$work/circuit.json"
        peers array "$design.arch" "$work/place" > "$work/array.py"
        theirs 'nextpnr, annealing' sa
        theirs 'nextpnr, HeAP' heap
    fi
done
