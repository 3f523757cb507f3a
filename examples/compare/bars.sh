#!/bin/sh
# Draws a table of table.sh as SVG, by gnuplot: sh compare/bars.sh TABLE > FILE.svg. Each design has a bar for each architecture: its mean
# cost over that of the first architecture.
set -u

fail() {
    echo "bars.sh: $*" >&2
    exit 2
}

[ $# -eq 1 ] || fail 'what it takes: TABLE'
[ -r "$1" ] || fail "cannot read $1"
command -v gnuplot > /dev/null || fail 'gnuplot is missing here. As root: apt-get install -y gnuplot-nox'
rows=$(mktemp) || exit 2
trap 'rm -f "$rows"' EXIT
trap 'exit 1' HUP INT TERM
# A row for each design, a column for each architecture.
awk '
    NR == 1 { next }
    !($1 in design) { design[$1]; designs[++d] = $1 }
    !($2 in architecture) { architecture[$2]; architectures[++a] = $2 }
    { mean[$1, $2] = $6 }
    END {
        printf "design"; for (j = 1; j <= a; j++) printf " \"%s\"", architectures[j]; print ""
        for (i = 1; i <= d; i++) {
            printf "\"%s\"", designs[i]
            for (j = 1; j <= a; j++) {
                first = mean[designs[i], architectures[1]]; it = mean[designs[i], architectures[j]]
                if (first > 0 && it > 0) printf " %.4f", it / first; else printf " NaN"
            }
            print ""
        }
    }' "$1" > "$rows"
[ "$(wc -l < "$rows")" -gt 1 ] || fail "$1 has no rows"
gnuplot -e "rows = '$rows'; columns = $(($(head -n 1 "$rows" | wc -w) - 1))" - << 'END'
set terminal svg size 800,420 font "sans-serif,12" background "white"
set title "mean cost over that of the first architecture"
set style data histograms
set style histogram clustered gap 1
set style fill solid 0.8 border -1
set linetype 1 linecolor "#2471a3"
set linetype 2 linecolor "#e8b04a"
set linetype 3 linecolor "#1e8449"
set linetype 4 linecolor "#c0392b"
set yrange [0:*]
set grid ytics
set key outside right top noenhanced
set xtics noenhanced
plot for [i = 2 : columns + 1] rows using i:xtic(1) title columnheader(i)
END
