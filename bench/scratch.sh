# Sourced by the benches that build a program; each sets $here, its own folder, and hands its words on. With `--compile` as its first word a
# bench only compiles its program: `tests/benches` calls each so.

compile=${1-}

# copy_to FOLDER PATH.. copies these files and folders of the checkout as they are, new ones too, without what .gitignore leaves out: the
# out/ folders of a checkout take gigabytes, and a check in the copy begins with what they keep all the same.
copy_to() {
    copy=$1
    shift
    (cd "$here/.." && git ls-files -z --cached --others --exclude-standard -- "$@" | tar -c --null -T - -f -) | tar -x -f - -C "$copy"
}

# Makes a scratch copy of the repository with one more program, since a bench is not one of its crates.
# scratch_with NAME DEPS sets $work, a temporary folder that is removed at the end, with the copy in $work/repo; the program comes on
# standard input.
scratch_with() {
    work=$(mktemp -d)
    trap 'rm -rf "$work"' EXIT
    mkdir -p "$work/repo/crates/$1/src"
    top=$(cd "$here/.." && pwd)
    copy_to "$work/repo" HANDLES crates.txt crates
    printf '%s: %s\n' "$1" "$2" >> "$work/repo/crates.txt"
    cat > "$work/repo/crates/$1/src/main.rt"
}

# enter NAME goes to the folder of the program, where `rt run` proves, builds and runs it. With `--compile` it compiles the program as a debug
# build with an empty test, which runs nothing of it, and ends the bench.
enter() {
    cd "$work/repo/crates/$1"
    if [ "$compile" = --compile ]; then
        printf '\n#[test]\nfn compiles() {}\n' >> src/main.rt
        rt try --test > "$work/log" 2>&1 && exit 0
        tail -n 40 "$work/log"
        exit 1
    fi
}
