#!/usr/bin/env -S python3 -B
"""Prints completions of the command line of vplace for a shell, made from its help: packaging/completions.py bash|zsh|fish PROGRAM"""
import sys

from help_text import helps

BASH = """# Completions of vplace for bash, made by packaging/completions.py from the help of the program.
_vplace() {
    local current=${COMP_WORDS[COMP_CWORD]} before=${COMP_WORDS[COMP_CWORD - 1]} command=${COMP_WORDS[1]} offered=''
    # `--arch=NAME` comes as three words.
    if [ "$current" = = ]; then
        current=''
    elif [ "$before" = = ]; then
        before=${COMP_WORDS[COMP_CWORD - 2]}
    fi
    COMPREPLY=()
    if [ "$COMP_CWORD" -eq 1 ]; then
        offered='@TOP@'
    else
        case "$command $before" in
@CASES@
        esac
    fi
    compopt +o default 2> /dev/null
    mapfile -t COMPREPLY < <(compgen -W "$offered" -- "$current")
}
complete -o default -F _vplace vplace
"""


def bash(top, commands):
    cases = []
    for it in commands:
        values = [option for option in it.options if option.value]
        files = [f"'{it.name} {option.long}'" for option in values if option.value == "FILE"]
        numbers = [f"'{it.name} {option.long}'" for option in values if option.value != "FILE" and not option.words]
        # Where this answers nothing, bash offers files, by the default that stands at the end.
        cases += [f"{' | '.join(files)}) return ;;"] * bool(files) + [f"{' | '.join(numbers)}) ;;"] * bool(numbers)
        cases += [f"'{it.name} {option.long}') offered='{' '.join(option.words)}' ;;" for option in values if option.words]
        cases.append(f"'{it.name} '*) offered='{' '.join(option.long for option in it.options)}' ;;")
    names = " ".join(name for name, _ in top.commands)
    cases.append(f"'help '*) offered='{names}' ;;")
    indented = "\n".join("            " + it for it in cases)
    return BASH.replace("@TOP@", " ".join([names, *(it.long for it in top.options)])).replace("@CASES@", indented)


def quoted(text):
    """A word of zsh or fish in quotes."""
    return "'" + text.replace("'", "'\\''") + "'"


def zsh_option(option):
    text = "".join("\\" + it if it in "[]:" else it for it in option.text)
    names = f"(- *){option.long}" if option.value is None else option.long
    value = ""
    if option.value == "FILE":
        value = ":file:_files"
    elif option.value:
        value = f":number:({' '.join(option.words)})"
    return quoted(f"{names}[{text}]{value}")


def zsh(top, commands):
    yield "#compdef vplace"
    yield "# Completions of vplace for zsh, made by packaging/completions.py from the help of the program."
    yield "local state line\nlocal -a commands\ncommands=("
    yield from (f"    {quoted(f'{name}:{text}')}" for name, text in top.commands)
    yield ")\n_arguments -C \\"
    yield from (f"    {zsh_option(it)} \\" for it in top.options)
    yield "    '1: :->command' '*:: :->rest'"
    yield "case $state in\ncommand) _describe command commands ;;\nrest)\n    case $words[1] in"
    for it in commands:
        yield f"    {it.name})\n        _arguments \\"
        yield from (f"            {zsh_option(option)} \\" for option in it.options)
        yield "            && return 0\n        ;;"
    yield "    help) _describe command commands ;;\n    esac\n    ;;\nesac"


def fish_option(condition, option):
    words = ["complete -c vplace -n", quoted(condition)]
    if option.short:
        words.append(f"-s {option.short[1:]}")
    words.append(f"-l {option.long[2:]}")
    if option.value:
        words.append("-r -F" if option.value == "FILE" else "-x")
    if option.words:
        words.append(f"-a {quoted(' '.join(option.words))}")
    return " ".join([*words, "-d", quoted(option.text)])


def fish(top, commands):
    yield "# Completions of vplace for fish, made by packaging/completions.py from the help of the program."
    yield "complete -c vplace -f"
    for name, text in top.commands:
        yield f"complete -c vplace -n __fish_use_subcommand -a {name} -d {quoted(text)}"
    yield from (fish_option("__fish_use_subcommand", it) for it in top.options)
    for it in commands:
        yield from (fish_option(f"__fish_seen_subcommand_from {it.name}", option) for option in it.options)


def main():
    shells = {"bash": lambda *it: [bash(*it).rstrip("\n")], "zsh": zsh, "fish": fish}
    if len(sys.argv) != 3 or sys.argv[1] not in shells:
        print("usage: packaging/completions.py bash|zsh|fish PROGRAM", file=sys.stderr)
        return 2
    print("\n".join(shells[sys.argv[1]](*helps(sys.argv[2]))))
    return 0


sys.exit(main())
