#!/bin/sh
# Places a design with one seed, in pieces, and prints the seed, the cost and the placement's file:
#     sh seeds/one.sh SEED ARCH NET [OPTION OF vplace place ..]
# Each piece makes PIECE moves and leaves a checkpoint. Begun again after a kill, this goes on from the last piece that is whole. What it
# makes is in OUT/NAME-TAG, as ../pieces.sh says.
set -u
export LC_ALL=C
# shellcheck disable=SC2034
script=one.sh
# shellcheck source=../pieces.sh
. "$(dirname -- "$0")/../pieces.sh"

[ $# -ge 3 ] || fail 'what it takes: SEED ARCH NET [OPTION OF vplace place ..]'
seed=$1 arch=$2 net=$3
shift 3
piece=${PIECE:-20000000}
is_number "$seed" || fail "no seed: '$seed'"
is_positive "$piece" || fail "no number of moves from 1 on: PIECE=$piece"
take_folder "$@"
base=$folder/seed$seed

# A vplace that outlives a killed script holds the lock until it ends, so no two write to one file.
exec 9> "$base.lock" || exit 4
flock -n 9 || echo "one.sh: seed $seed is being placed: waiting for that" >&2
flock 9 || exit 4

# Makes piece number `$1`; the words after it are those of `vplace place`. The piece is whole when its report has its name: its checkpoint
# is on the disk by then.
make_piece() {
    number=$1 before=$base.point$(($1 - 1)) after=$base.point$1
    shift
    [ "$number" -eq 1 ] || [ -f "$before" ] || fail "$before is missing: remove $base.piece* to begin seed $seed anew"
    if [ "$number" -eq 1 ]; then
        vplace place --arch "$arch" --net "$net" --out "$base.place" --seed "$seed" --workers 1 --stop "$piece" --save "$after" "$@"
    else
        vplace resume --arch "$arch" --net "$net" --point "$before" --out "$base.place" --workers 1 --stop $(($(moves_made "$before") + piece)) --save "$after"
    fi > "$base.part" && sync "$base.part" && mv "$base.part" "$base.piece$number" && rm -f "$before"
}

if [ ! -f "$base.report" ]; then
    made=0
    while [ -f "$base.piece$((made + 1))" ]; do made=$((made + 1)); done
    until is_over "$base.piece$made"; do
        made=$((made + 1))
        make_piece "$made" "$@" || {
            status=$?
            rm -f "$base.part"
            exit "$status"
        }
    done
    number=0
    while [ "$number" -lt "$made" ]; do
        number=$((number + 1))
        cat "$base.piece$number"
    done > "$base.part" && mv "$base.part" "$base.report" || exit 4
fi
rm -f "$base".piece* "$base".point*
echo "seed $seed cost $(tail -n 1 "$base.report" | cut -d ' ' -f 3) $base.place"
