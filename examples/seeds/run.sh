#!/bin/sh
# Places a design with many seeds side by side, prints the cost of each, and keeps a copy of the best placement so far as best.place:
#     sh seeds/run.sh ARCH NET [OPTION OF vplace place ..]
# SEEDS, JOBS (how many run at a time), PIECE and OUT are taken from the environment. Begun again after a kill, with the same words, it
# goes on from each seed's last checkpoint; seeds that are placed are not placed again.
set -u
export LC_ALL=C

here=$(dirname -- "$0")
if [ $# -lt 2 ]; then
    echo 'run.sh: what it takes: ARCH NET [OPTION OF vplace place ..]' >&2
    exit 2
fi
if ! command -v vplace > /dev/null; then
    echo 'run.sh: vplace is not on the path' >&2
    exit 2
fi
status=0
costs=$(echo "${SEEDS:-1 2 3 4 5 6 7 8}" | tr -s ' ' '\n' |
    xargs -P "${JOBS:-$(nproc)}" -I '{seed}' sh "$here/one.sh" '{seed}' "$@") || status=1

if [ -n "$costs" ]; then
    echo "$costs" | sort -k 2,2n | cut -d ' ' -f 1-4
    folder=$(echo "$costs" | head -n 1 | cut -d ' ' -f 5-)
    folder=${folder%/*}
    # The best of all that is placed there, whichever seeds were asked for now.
    best=$(cd -- "$folder" && grep -H '^final' seed*.report | sort -s -k 3,3n | head -n 1)
    seed=${best%%.report:*}
    cp "$folder/$seed.place" "$folder/best.part" && mv "$folder/best.part" "$folder/best.place" || exit 4
    echo "best: seed ${seed#seed} cost $(echo "$best" | cut -d ' ' -f 3): $folder/best.place"
fi
exit "$status"
