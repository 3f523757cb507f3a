#!/bin/sh
# Draws a report of vplace as SVG, by gnuplot: cost, acceptance, range and temperature by stage: sh plots/report.sh NAME.report > NAME.svg
set -u

fail() {
    echo "report.sh: $*" >&2
    exit 2
}

[ $# -eq 1 ] || fail 'what it takes: REPORT'
[ -r "$1" ] || fail "cannot read $1"
command -v gnuplot > /dev/null || fail 'gnuplot is missing here. As root: apt-get install -y gnuplot-nox'
stages=$(mktemp) || exit 2
trap 'rm -f "$stages"' EXIT
trap 'exit 1' HUP INT TERM
awk -f "$(dirname -- "$0")/stages.awk" "$1" | tail -n +2 > "$stages"
awk '$2 > 0 { hot = 1 } END { exit !hot }' "$stages" || fail "$1 has no stage with a temperature"

# The frozen stage has no place on a scale of powers.
gnuplot -e "stages = '$stages'" - << 'END'
set terminal svg size 800,560 font "sans-serif,12" background "white"
set multiplot layout 2, 2
unset key
set xtics 10
set mytics 1
set style data lines
set linetype 1 linecolor "#2471a3" linewidth 2
set xlabel "stage"
set title "cost after the stage"
plot stages using 1:5
set title "moves accepted, in percent"
set yrange [0:100]
plot stages using 1:4
set title "range, in columns and rows"
set yrange [0:*]
plot stages using 1:3
set title "temperature, in units of cost"
set yrange [*:*]
set logscale y
plot stages using 1:($2 > 0 ? $2 : NaN)
END
