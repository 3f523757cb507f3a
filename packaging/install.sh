#!/bin/sh
# Puts the built program, its manual pages, its completions, the user's guide and the scripts of examples/ below a folder, or removes them:
#     packaging/install.sh PROGRAM FOLDER
#     packaging/install.sh --remove FOLDER
set -u
umask 022
cd "$(dirname -- "$0")/.." || exit 2

fail() {
    echo "install.sh: $*" >&2
    exit 1
}

# What goes to share/vplace, by its names here: the guide with its pictures, the scripts, and the designs that the first commands of the guide
# and the flow place.
shared() {
    echo docs/USER-GUIDE.md
    sed -n 's/.*](\([a-z0-9_]*\.svg\)).*/docs\/\1/p' docs/USER-GUIDE.md
    find examples/compare examples/from_verilog examples/long examples/plots examples/schedule examples/seeds -type f \
        ! -path '*/out/*' ! -path '*/__pycache__/*' ! -name Makefile ! -name pins
    echo examples/pieces.sh
    for kind in arch net pads place; do echo "examples/rs232_cl4.$kind"; done
    for kind in arch net place; do echo "examples/c880_ble.$kind"; done
}

program=${1-} folder=${2-}
[ -n "$folder" ] || fail 'what it takes: PROGRAM|--remove FOLDER'
if [ "$program" = --remove ]; then
    [ -d "$folder" ] || exit 0
    shared | sed 's/^[a-z]*\///' | while read -r name; do rm -f -- "$folder/share/vplace/$name"; done
    cd -- "$folder" || exit 1
    # Only if nothing of others is left there.
    for name in share/vplace/*/ share/vplace; do
        if [ -d "$name" ]; then rmdir --ignore-fail-on-non-empty -- "$name"; fi
    done
    exec rm -f bin/vplace share/man/man1/vplace.1 share/man/man5/vplace-formats.5 share/bash-completion/completions/vplace \
        share/zsh/site-functions/_vplace share/fish/vendor_completions.d/vplace.fish
fi
[ -x "$program" ] || fail "$program is not built: make program builds it"
command -v python3 > /dev/null || fail 'python3 is missing here: as root, apt-get install -y python3'
made=$(mktemp -d) || exit 1
trap 'rm -rf "$made"' EXIT
trap 'exit 1' HUP INT TERM

# Everything is made before anything is installed.
packaging/manual.py "$program" docs/USER-GUIDE.md > "$made/vplace.1" || exit
packaging/manual.py --formats "$program" docs/USER-GUIDE.md > "$made/vplace-formats.5" || exit
packaging/guide_page.py docs/USER-GUIDE.md > "$made/USER-GUIDE.md" || exit
for shell in bash zsh fish; do
    packaging/completions.py "$shell" "$program" > "$made/$shell" || exit
done
install -D -m 755 -- "$program" "$folder/bin/vplace" &&
    install -D -m 644 -- "$made/vplace.1" "$folder/share/man/man1/vplace.1" &&
    install -D -m 644 -- "$made/vplace-formats.5" "$folder/share/man/man5/vplace-formats.5" &&
    install -D -m 644 -- "$made/bash" "$folder/share/bash-completion/completions/vplace" &&
    install -D -m 644 -- "$made/zsh" "$folder/share/zsh/site-functions/_vplace" &&
    install -D -m 644 -- "$made/fish" "$folder/share/fish/vendor_completions.d/vplace.fish" &&
    shared | while read -r name; do install -D -m 644 -- "$name" "$folder/share/vplace/${name#*/}" || exit; done &&
    install -m 644 -- "$made/USER-GUIDE.md" "$folder/share/vplace/USER-GUIDE.md" &&
    echo "installed below $folder: vplace, its manual pages, completions for bash, zsh and fish, and in share/vplace the guide and the scripts"
