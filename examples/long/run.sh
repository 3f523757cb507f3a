#!/bin/sh
# Places a design in a long run that may be stopped, and says on standard error how far it is:
#     sh long/run.sh ARCH NET [OPTION OF vplace place ..]
# The run is made in pieces of some EVERY seconds (20), or of PIECE moves each if PIECE is given; each leaves a checkpoint. At an interrupt
# (Ctrl-C), a hangup or a TERM it ends the running piece, keeps the last checkpoint, and says so; the status is 128 and the number of the
# signal. The same words go on from there, also after a kill or a crash. run.report and run.place, in OUT/NAME-TAG for NAME.net (OUT is
# `out`), are those of one run without a stop.
set -u
export LC_ALL=C
# shellcheck disable=SC2034
script=run.sh
# shellcheck source=../pieces.sh
. "$(dirname -- "$0")/../pieces.sh"

[ $# -ge 2 ] || fail 'what it takes: ARCH NET [OPTION OF vplace place ..]'
words="$0 $*"
arch=$1 net=$2
shift 2
# The options of workers may change from piece to piece, and do not change the answer.
crew='' waits=''
for word in "$@"; do
    shift
    case $waits$word in
    --workers | --batch) waits=$word ;;
    --workers=* | --batch=*) crew="$crew $word" ;;
    --workers* | --batch*) crew="$crew $waits $word" waits='' ;;
    *) set -- "$@" "$word" ;;
    esac
done
crew="$crew $waits"
every=${EVERY:-20} piece=${PIECE:-}
is_positive "$every" || fail "no number of seconds from 1 on: EVERY=$every"
[ -z "$piece" ] || is_positive "$piece" || fail "no number of moves from 1 on: PIECE=$piece"
take_folder "$@"
base=$folder/run

# How far a checkpoint is, and how long the rest takes at a number of moves a second (0: not known). With a factor the schedule says how
# many stages follow; with `adaptive` only the run does.
how_far() {
    awk -v rate="$2" '
        function minutes(seconds) {
            if (seconds < 90) return sprintf("%d s", seconds + 0.5)
            if (seconds < 5400) return sprintf("%d min", seconds / 60 + 0.5)
            return sprintf("%d h %d min", seconds / 3600, seconds % 3600 / 60)
        }
        $1 == "schedule" { first = $2; last = $3; factor = $4; moves = $5 }
        $1 == "stage" { stage = $2; done = $2 * moves + $4 }
        END {
            stages = 1
            if (factor != "adaptive") for (t = first; t >= last; t = int(t * factor / 1000)) stages++
            text = "stage " stage + 1
            if (factor != "adaptive") text = text sprintf(" of %d, %d %%", stages, 100 * done / (stages * moves))
            else text = text sprintf(", %.1f million moves so far", done / 1000000)
            if (rate > 0) text = text sprintf(", %.1f million moves a second", rate / 1000000)
            if (rate > 0 && factor != "adaptive") text = text ", " minutes((stages * moves - done) / rate) " left"
            print text
        }' "$1"
}

# The last piece that is whole: its report, joined to those before it, is renamed when its checkpoint is on the disk.
last_piece() {
    made=0
    for file in "$base".report?*; do
        number=${file##*.report}
        if is_positive "$number" && [ "$number" -gt "$made" ]; then made=$number; fi
    done
}

child=''
stop() {
    trap '' HUP INT TERM
    if [ -n "$child" ]; then
        kill "$child" 2> /dev/null
        wait "$child" 2> /dev/null
    fi
    rm -f "$base.part"
    last_piece
    if [ "$made" -gt 0 ] && [ -f "$base.point$made" ]; then
        echo "run.sh: stopped; kept: $(how_far "$base.point$made" 0). To go on: sh $words" >&2
    else
        echo "run.sh: stopped before the first checkpoint. To begin again: sh $words" >&2
    fi
    exit $((128 + $1))
}
trap 'stop 1' HUP
trap 'stop 2' INT
trap 'stop 15' TERM

# A vplace that outlives a killed script holds the lock until it ends, so no two write to one file.
exec 9> "$base.lock" || exit 4
flock -n 9 || {
    echo 'run.sh: this run is being made: waiting for that' >&2
    flock 9 &
    wait $! || exit 4
}

milliseconds() {
    echo $(($(date +%s%N) / 1000000))
}

if [ ! -f "$base.report" ]; then
    last_piece
    at=0 rate=0
    if [ "$made" -gt 0 ] && ! is_over "$base.report$made"; then
        [ -f "$base.point$made" ] || fail "$base.point$made is missing: remove $base.report* to begin anew"
        at=$(moves_made "$base.point$made")
        echo "goes on at $(how_far "$base.point$made" 0)" >&2
    fi
    until is_over "$base.report$made"; do
        next=$((made + 1))
        if [ -n "$piece" ]; then moves=$piece; elif [ "$rate" -gt 0 ]; then moves=$((rate * every)); else moves=200000; fi
        from=$(milliseconds)
        # In the background, so that a signal is answered at once. The options of workers are words.
        # shellcheck disable=SC2086
        if [ "$made" -eq 0 ]; then
            vplace place --arch "$arch" --net "$net" --out "$base.place" --stop "$moves" --save "$base.point$next" $crew "$@" \
                > "$base.part" &
        else
            vplace resume --arch "$arch" --net "$net" --point "$base.point$made" --out "$base.place" --stop $((at + moves)) \
                --save "$base.point$next" $crew > "$base.part" &
        fi
        child=$!
        wait "$child"
        status=$?
        child=''
        if [ "$status" -ne 0 ]; then
            rm -f "$base.part"
            exit "$status"
        fi
        {
            if [ "$made" -gt 0 ]; then cat "$base.report$made"; fi
            cat "$base.part"
        } > "$base.joined" && sync "$base.joined" && mv "$base.joined" "$base.report$next" && rm -f "$base.part" || exit 4
        rm -f "$base.report$made" "$base.point$made"
        made=$next
        if ! is_over "$base.report$made"; then
            taken=$(($(milliseconds) - from))
            before=$at
            at=$(moves_made "$base.point$made")
            rate=$(((at - before) * 1000 / (taken + 1)))
            how_far "$base.point$made" "$rate" >&2
        fi
    done
    mv "$base.report$made" "$base.report" || exit 4
fi
rm -f "$base".report?* "$base".point*
tail -n 1 "$base.report"
echo "the placement lies at $base.place, the report at $base.report"
