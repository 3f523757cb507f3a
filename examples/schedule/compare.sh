#!/bin/sh
# Compares three schedules on a design, each with the seeds of SEEDS (1 to 4), one run after another:
#     sh schedule/compare.sh ARCH NET [OPTION OF vplace place ..]
# `default` is the default schedule; `suggested` is what suggest.sh prints; `adaptive` is VPR's cooling between the same two temperatures.
# All three make about the same number of moves. The table has the moves of a run, the mean, the least and the greatest cost, and the mean
# time of a run in seconds.
set -u
export LC_ALL=C

fail() {
    echo "compare.sh: $*" >&2
    exit 2
}

[ $# -ge 2 ] || fail 'what it takes: ARCH NET [OPTION OF vplace place ..]'
here=$(dirname -- "$0") arch=$1 net=$2
shift 2
command -v vplace > /dev/null || fail 'vplace is not on the path'
scratch=$(mktemp -d) || exit 2
trap 'rm -rf "$scratch"' EXIT
trap 'exit 1' HUP INT TERM

run() {
    vplace place --arch "$arch" --net "$net" --out "$scratch/place" "$@" > "$scratch/report"
}

# A line of the table; the words after its title are options.
row() {
    title=$1
    shift
    for seed in ${SEEDS:-1 2 3 4}; do
        from=$(date +%s%N)
        run --seed "$seed" "$@" || exit
        awk -v taken="$((($(date +%s%N) - from) / 1000))" 'END { print $3, $NF, taken / 1000000 }' "$scratch/report"
    done > "$scratch/costs" || exit
    awk -v title="$title" '
        { cost += $1; moves += $2; taken += $3; if (NR == 1 || $1 < least) least = $1; if ($1 > most) most = $1 }
        END { printf "%s %.0f %.1f %.1f %.1f %.1f\n", title, moves / NR, cost / NR, least, most, taken / NR }' "$scratch/costs"
}

suggested=$(sh "$here/suggest.sh" "$arch" "$net" - "$@") || exit
ends=${suggested%% --alpha-t*}

# The options of a schedule are words.
# shellcheck disable=SC2086
{
    # How many stages there are: a run with one move a stage says it for a factor. With `adaptive` it depends on the moves a little.
    run "$@" ${suggested%--moves *} --moves 1 || exit
    blocks=$(awk 'NR == 1 { print $2 }' "$scratch/report")
    in_all=$(awk -v moves="${suggested##* }" 'END { printf "%.0f\n", $NF * moves }' "$scratch/report")
    few=$((in_all / 1500))
    [ "$few" -ge "$blocks" ] || few=$blocks
    run "$@" $ends --alpha-t adaptive --moves "$few" || exit
    moves=$(awk -v few="$few" -v in_all="$in_all" 'END { printf "%.0f\n", int(in_all / ($NF / few)) }' "$scratch/report")
    echo 'schedule moves mean least greatest seconds'
    row default "$@"
    row suggested "$@" $suggested
    row adaptive "$@" $ends --alpha-t adaptive --moves "$moves"
    echo "suggested: $suggested"
    echo "adaptive: $ends --alpha-t adaptive --moves $moves"
}
