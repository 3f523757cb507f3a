#!/bin/sh
# Places a design by the program in main.rt.txt, in a scratch copy of the repository: a debug build, which proves nothing and is slow.
# What it prints comes when it has ended.
# usage: examples/library/run.sh [ARCH NET [PLACE [MOVES]]]
set -eu
example=$(cd "$(dirname "$0")" && pwd)
arch=${1:-$example/../rs232_cl4.arch}
net=${2:-$example/../rs232_cl4.net}
place=${3:-library.place}
moves=${4:-4000}
# The program runs in a folder of its own, which has copies of the two files.
place=$(cd "$(dirname "$place")" && pwd)/$(basename "$place")
set --
here=$(cd "$example/../../bench" && pwd)
. "$here/scratch.sh"
scratch_with library 'fab_text fab_file fab_sched fab_board fab_dial fab_run anyhow' < "$example/main.rt.txt"
mkdir "$work/data"
cp "$arch" "$net" "$work/data"
arch=$(basename "$arch") net=$(basename "$net")
enter library
rt try --seconds 1800 --data "$arch=$work/data/$arch" --data "$net=$work/data/$net" -- "$arch" "$net" "$place" "$moves"
