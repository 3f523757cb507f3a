#!/bin/sh
# Measures a design by short runs, and prints a schedule for it as options of `vplace place`:
#     sh schedule/suggest.sh ARCH NET [SECONDS [OPTION OF vplace place ..]]
# SECONDS is the time that the run may take on this machine. Without it, or with `-`, the run makes as many moves as one by default, and the
# options are the same on every machine. Options that belong to the design, such as --pads or --nx, come last. The options go to standard
# output, and what they come from to standard error.
set -u
export LC_ALL=C

fail() {
    echo "suggest.sh: $*" >&2
    exit 2
}

[ $# -ge 2 ] || fail 'what it takes: ARCH NET [SECONDS [OPTION OF vplace place ..]]'
arch=$1 net=$2 seconds=${3:--}
shift 2
[ $# -eq 0 ] || shift
case $seconds in
-) ;;
'' | *[!0-9]*) fail "no whole number of seconds: '$seconds'" ;;
esac
for option in "$@"; do
    case $option in
    --init-t* | --exit-t* | --alpha-t* | --inner* | --moves* | --stop* | --save* | --out*) fail "$option is what this chooses" ;;
    esac
done
command -v vplace > /dev/null || fail 'vplace is not on the path'
scratch=$(mktemp -d) || exit 2
trap 'rm -rf "$scratch"' EXIT
trap 'exit 1' HUP INT TERM

# A run whose report goes to the file `report`; the words are further options.
run() {
    vplace place --arch "$arch" --net "$net" --out "$scratch/place" "$@" > "$scratch/report" || exit
}

milliseconds() {
    echo $(($(date +%s%N) / 1000000))
}

# Prints a temperature that is given in ten-thousandths.
degrees='function degrees(t, text) {
    if (t < 1) t = 1
    text = sprintf("%d.%04d", int(t / 10000), t % 10000)
    sub(/\.?0*$/, "", text)
    return text
}'

# The temperature of a step on a scale of ten steps from one to ten: step -40 is 0.0001, step 0 is 1, step 50 is 100,000.
temperature() {
    awk -v step="$1" "$degrees"'BEGIN {
        split("10 13 16 20 25 32 40 50 63 80", digits, " ")
        from = step + 40; decade = int(from / 10); value = digits[from % 10 + 1]
        for (i = 0; i < decade; i++) value *= 10
        print degrees(int(value / 10))
    }'
}

# How many of a million moves one stage at a temperature accepts, begun at the start placement.
accepted() {
    only=$1
    shift
    run --init-t "$only" --exit-t "$only" --moves "$probe" --stop "$probe" --save "$scratch/point" "$@"
    awk '$1 == "stage" { printf "%d\n", 1000000 * $10 / $8 }' "$scratch/report"
}

# The design, and the moves of a stage by default: a run that stops before its first move says them.
run --stop 0 --save "$scratch/point" "$@"
blocks=$(awk '$1 == "blocks" { print $2 }' "$scratch/report")
nets=$(awk '$1 == "blocks" { print $8 }' "$scratch/report")
start=$(awk '$1 == "start" { print $3 }' "$scratch/report")
by_default=$(awk '$1 == "schedule" { print $5 }' "$scratch/point")
probe=$((10 * blocks))
[ "$probe" -ge 20000 ] || probe=20000

# The number of stages with the frozen one. Temperatures are rounded down to ten-thousandths, as in the run.
stages() {
    awk -v first="$1" -v last="$2" -v factor="$3" 'BEGIN {
        t = int(first * 10000 + 0.5); last = int(last * 10000 + 0.5); alpha = int(factor * 1000 + 0.5)
        for (number = 1; t >= last; number++) t = int(t * alpha / 1000)
        print number
    }'
}

# The first temperature is the least of the scale at which the share is nine tenths. Moves that cannot be made are never accepted, so in a
# small or narrow array the share has to be 95 % of that at the highest temperature, if that is less.
highest=$(accepted 100000 "$@") || exit
if [ "$highest" -eq 0 ]; then
    echo 'no move is accepted at any temperature: one stage of one move is enough' >&2
    echo '--init-t 0.0001 --exit-t 1 --moves 1'
    exit
fi
wanted=$((highest * 95 / 100))
[ "$wanted" -le 900000 ] || wanted=900000

# By threes, doubling or halving, until two steps of the scale enclose the share; then one by one.
step=20
share=$(accepted "$(temperature $step)" "$@") || exit
if [ "$share" -lt "$wanted" ]; then
    while [ "$share" -lt "$wanted" ] && [ "$step" -lt 50 ]; do
        step=$((step + 3))
        share=$(accepted "$(temperature $step)" "$@") || exit
    done
    low=$((step - 3))
else
    low=$step
    while [ "$low" -gt -37 ]; do
        low=$((low - 3))
        below=$(accepted "$(temperature $low)" "$@") || exit
        [ "$below" -ge "$wanted" ] || break
        step=$low share=$below
    done
fi
for between in $((low + 1)) $((low + 2)); do
    if [ "$between" -lt "$step" ]; then
        below=$(accepted "$(temperature $between)" "$@") || exit
        if [ "$below" -ge "$wanted" ]; then
            step=$between share=$below
        fi
    fi
done
first=$(temperature $step)

# A short run, for the cost of a net at its end. It cools fast, to a temperature that is low beside the costs of nets at the start.
coldest=$(awk -v start="$start" -v nets="$nets" "$degrees"'BEGIN { print degrees(int(start / (nets + !nets) * 5)) }')
from=$(milliseconds)
run --init-t "$first" --exit-t "$coldest" --moves 1 "$@"
empty=$(($(milliseconds) - from)) few=$(awk 'END { print $NF }' "$scratch/report")
many=$((10 * blocks))
timed() {
    from=$(milliseconds)
    run --init-t "$first" --exit-t "$coldest" --moves "$many" "$@"
    taken=$(($(milliseconds) - from - empty))
    made=$(awk -v few="$few" 'END { print $NF - few }' "$scratch/report")
}
timed "$@"
cost=$(awk 'END { print $3 }' "$scratch/report")
# VPR ends below 0.005 of the cost of a net.
last=$(awk -v cost="$cost" -v nets="$nets" "$degrees"'BEGIN { print degrees(int(cost / (nets + !nets) * 50 + 0.5)) }')
# The time of few moves says nothing.
while [ "$taken" -lt 400 ] && [ "$many" -le 1000000 ]; do
    many=$((many * 4))
    timed "$@"
done
[ "$taken" -gt 0 ] || taken=1
a_second=$((made * 1000 / taken))
[ "$a_second" -gt 0 ] || a_second=1

# Above 15,000 blocks the stages that are too hot or too cold to gain much are many, and `adaptive` passes them fast; how many it makes, only a
# run says, and its moves change that a little.
if [ "$blocks" -le 15000 ]; then
    factor=0.9
    number=$(stages "$first" "$last" $factor)
else
    factor=adaptive
    run --init-t "$first" --exit-t "$last" --alpha-t adaptive --moves $((2 * blocks)) "$@"
    number=$(awk -v moves=$((2 * blocks)) 'END { print $NF / moves }' "$scratch/report")
fi
in_all=$((by_default * $(stages 100 0.01 0.8)))
[ "$seconds" = - ] || in_all=$((seconds * a_second - empty * a_second / 1000))
moves=$((in_all / number))
[ "$moves" -ge 1 ] || moves=1
[ "$moves" -le 1073741824 ] || moves=1073741824

{
    awk -v first="$first" -v share="$share" 'BEGIN { printf "first temperature %s: a stage accepts %.1f %% of its moves\n", first, share / 10000 }'
    awk -v last="$last" -v cost="$cost" -v nets="$nets" '
        BEGIN { printf "last temperature %s: 0.005 of the cost of a net, %.2f, after a short run\n", last, cost / (nets + !nets) }'
    awk -v number="$number" -v moves="$moves" -v a_second="$a_second" -v empty="$empty" 'BEGIN {
        printf "%d stages of %d moves, %.1f million in all; at %.1f million moves a second here some %.1f s\n", number, moves, number * moves / 1000000, a_second / 1000000, number * moves / a_second + empty / 1000
    }'
} >&2
echo "--init-t $first --exit-t $last --alpha-t $factor --moves $moves"
