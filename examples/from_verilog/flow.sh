#!/bin/sh
# Places designs from their Verilog (.v, .sv) or BLIF (.blif), each file a design of its own:
#     sh from_verilog/flow.sh [FILE ..]
# Without a file it takes those of V, or else the two designs of this folder. What it makes is in OUT/kK (out/k4): NAME.net, NAME.arch,
# NAME.place, and the report of the placer, NAME.report. README.md says more, also of the variables.
set -u
here=$(dirname -- "$0")
V=${V:-} K=${K:-4} PADS=${PADS:-2} TOP=${TOP:-} FLAGS=${FLAGS:-} MEMORY=${MEMORY:-16384}
out=${OUT:-out}/k$K

fail() {
    echo "flow.sh: $*" >&2
    exit 1
}

# A value of V that is the name of one file may have blanks; else its words are names.
if [ $# -eq 0 ]; then
    if [ -z "$V" ]; then
        set -- "$here/uart.v" "$here/processor.v"
    elif [ -f "$V" ]; then
        set -- "$V"
    else
        # shellcheck disable=SC2086
        set -- $V
    fi
fi
for number in "$K" "$PADS" "$MEMORY"; do
    case $number in '' | *[!0-9]*) fail "no number: $number" ;; esac
done
missing=''
for needed in yosys python3; do
    command -v "$needed" > /dev/null || missing="$missing $needed"
done
[ -z "$missing" ] || fail "missing here:$missing. As root: apt-get install -y$missing"
command -v vplace > /dev/null || fail 'vplace is not on the path; make program at the top builds it at crates/vplace/out/vplace'
for file in "$@"; do [ -f "$file" ] || fail "there is no file $file"; done
mkdir -p "$out" || exit 1

# From a source to tables and flip-flops. A set or reset that does not wait for the clock is made one that does, and undriven wires are 0.
# Latches stay as they are, and dfflegalize refuses them. opt_merge leaves one inverter to all flip-flops of a falling clock.
top=${TOP:+-top $TOP}
scratch=$(mktemp -d) || exit 1
trap 'rm -rf "$scratch"' EXIT
trap 'exit 1' HUP INT TERM
steps="synth -flatten ${top:--auto-top}; async2sync t:\$_DLATCH* %n; setundef -undriven -zero; dfflegalize -cell \$_DFF_P_ 01; opt_merge
    abc -lut $K; opt_clean"

for file in "$@"; do
    title=${file##*/}
    # The header of a placement has the name as one word; yosys takes one with a quote for more than one.
    name=$(printf '%s' "${title%.*}" | sed 's/%/%25/g; s/ /%20/g; s/\t/%09/g; s/#/%23/g; s/\\/%5C/g; s/"/%22/g; s/;/%3B/g')
    base=$out/$name
    # yosys is called in the folder of the source, so that names that it makes from the file's are the same wherever the call comes from.
    case $title in -*) source=./$title ;; *) source=$title ;; esac
    (cd -- "$(dirname -- "$file")" && yosys -q -p "tee -q -o $scratch/before ls; hierarchy -check ${top:--auto-top}
        tee -q -o $scratch/after ls; proc; flatten; write_json $scratch/early.json" "$source") || exit 1
    python3 "$here/look.py" -- "$title" "$scratch" "$MEMORY" || exit 1
    (cd -- "$(dirname -- "$file")" && yosys -q -p "$steps; write_json $scratch/json" "$source") || exit 1
    mv "$scratch/json" "$base.json" || exit 1
    python3 "$here/pack.py" --inputs "$K" --pads "$PADS" "$base.json" "$base" || exit 1
    # The options are words.
    # shellcheck disable=SC2086
    (cd "$out" && vplace place --arch "$name.arch" --net "$name.net" --out "$name.place" $FLAGS > "$name.report") || {
        rm -f "$base.report"
        exit 1
    }
    tail -n 1 "$base.report"
    (cd "$out" && vplace check --arch "$name.arch" --net "$name.net" --place "$name.place") || exit 1
done
