# shellcheck shell=sh disable=SC2154
# What seeds/one.sh and long/run.sh share: runs that are made in pieces, each of which leaves a checkpoint. They read this file; `script` is
# the name of the one that does. What a run makes is in OUT/NAME-TAG, for NAME.net; other files or options give another tag, so that no old
# answer is taken for a new one.

fail() {
    echo "$script: $*" >&2
    exit 2
}

is_number() {
    case $1 in '' | *[!0-9]*) return 1 ;; esac
}

# A number of moves, or of seconds.
is_positive() {
    case $1 in '' | 0* | *[!0-9]*) return 1 ;; esac
}

# Everything that an answer depends on: the bytes of each file, and the options.
ingredients() {
    cat -- "$arch" "$net"
    for word in "$@"; do
        printf '%s\n' "$word"
        if [ -f "${word#--pads=}" ]; then cat -- "${word#--pads=}"; fi
    done
}

# Looks whether the files can be read, and sets `folder`; the words are the options of `vplace place`.
take_folder() {
    for file in "$arch" "$net"; do [ -r "$file" ] || fail "cannot read $file"; done
    command -v vplace > /dev/null || fail "vplace is not on the path of $(uname -n)"
    command -v flock > /dev/null || fail 'flock is missing here: it is in the package util-linux'
    tag=$(ingredients "$@" | cksum | cut -d ' ' -f 1)
    name=${net##*/}
    folder=${OUT:-out}/${name%.net}-$tag
    mkdir -p "$folder" || exit 4
}

# Whether a report is that of a run that has ended.
is_over() {
    tail -n 1 "$1" 2> /dev/null | grep -q '^final cost'
}

# How many moves of the run were made up to a checkpoint.
moves_made() {
    awk '$1 == "schedule" { moves = $5 } $1 == "stage" { printf "%.0f\n", $2 * moves + $4 }' "$1"
}
