# What the scripts of tests/ begin with that run the built program. Its path is their first argument, and the others name the cases to be run;
# without them all are. Sets `program`, `here` (the folder of the script), `top` (that of the repository) and `scratch`, which is removed at the
# end. A script has the line `. "$(dirname -- "$0")/../common.sh"`, or the same without `..`.
set -u
umask 022
LC_ALL=C
export LC_ALL

here=$(CDPATH='' cd -- "$(dirname -- "$0")" && pwd)
top=${here%/tests*}
if [ $# -lt 1 ] || [ ! -f "$1" ] || [ ! -x "$1" ]; then
    echo "usage: $0 PROGRAM [CASE ..] (no program at '${1-}')" >&2
    exit 2
fi
program=$(CDPATH='' cd -- "$(dirname -- "$1")" && pwd)/$(basename -- "$1")
shift
named=$# cases=" $* "

scratch=$(mktemp -d) || exit 2
trap 'chmod -R u+rwx "$scratch"; rm -rf "$scratch"' EXIT
trap 'exit 1' HUP INT TERM

# Whether a case is to be run.
is_meant() {
    [ "$named" -eq 0 ] && return
    case $cases in
        *" $1 "*) ;;
        *) return 1 ;;
    esac
}
