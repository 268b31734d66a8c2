"""What shells complete behind `planet`: commands and options from docs/use/commands.md, and files by their kind."""
from __future__ import annotations

from planet_tools.explain.forms import FORMS
from planet_tools.front.commands import Command, commands, options

MADE = "by scripts/pages/editor"
# the kinds of what `check` and `show` take; that of other files is their header
KINDS = {"check": ["program"], "show": ["frame"]}
IS_KIND = """
# whether a file is of one of the kinds: a program, a frame in hex, or a file of lines of this header
{name}() {{
    local line='' kind
    {reading}
    for kind in {kinds}; do
        case $kind in
        program) [[ $file == *.plan || $line == svc\\ * || $line == fun\\ * || $line == exception\\ * ]] && return ;;
        frame) [[ $line == 504[cC]414[eE]* ]] && return ;;
        *) [[ $line == "planet $kind "[12] ]] && return ;;
        esac
    done
    return 1
}}
""".strip()
BASH = """# Completion of planet for bash, {made}: source it, or have it in a folder of bash-completion.

{is_kind}

_planet_files() {{
    local file found=()
    while IFS= read -r file; do
        if [[ -d $file ]] || {{ [[ -f $file ]] && _planet_is_kind "$file" "$@"; }}; then
            found+=("$file")
        fi
    done < <(compgen -f -- "$word")
    [ "${{#found[@]}}" -gt 0 ] || mapfile -t found < <(compgen -f -- "$word")
    compopt -o filenames 2>/dev/null
    COMPREPLY=("${{found[@]}}")
}}

_planet() {{
    local word=${{COMP_WORDS[COMP_CWORD]}} first=1
    COMPREPLY=()
    [[ ${{COMP_WORDS[1]}} != --explain || $COMP_CWORD -eq 1 ]] || first=2
    if [ "$COMP_CWORD" -eq "$first" ]; then
        local known='{commands}'
        [ "$first" -eq 2 ] || known='{words}'
        mapfile -t COMPREPLY < <(compgen -W "$known" -- "$word")
        return
    fi
    case ${{COMP_WORDS[first]}}:$((COMP_CWORD - first)) in
{cases}
    help:1) mapfile -t COMPREPLY < <(compgen -W '{commands}' -- "$word") ;;
    esac
}}

complete -F _planet planet
"""
ZSH = """#compdef planet
# Completion of planet for zsh, {made}: it stands in a folder of fpath.

{is_kind}

_planet() {{
    local -a known _planet_kinds
    local context state state_descr line
    typeset -A opt_args
    known=(
{commands}
    )
    _arguments -C \\
{options}
        '1: :->command' '*:: :->word'
    case $state in
    command) _describe -t commands command known ;;
    word)
        case $words[1]:$((CURRENT - 1)) in
{cases}
        help:1) _describe -t commands command known ;;
        esac
        [[ -z $_planet_kinds ]] || _files -g '*(-.+_planet_is_kind)'
        ;;
    esac
}}

_planet "$@"
"""


def kinds_of(command: Command) -> list[str]:
    """Returns the kinds of the files that a command takes."""
    headers: list[str] = FORMS["commands"].get(command.name, [])
    return KINDS.get(command.name) or list(dict.fromkeys(it.split(" ")[1] for it in headers))


def file_places() -> list[tuple[str, list[str]]]:
    """Returns where a file stands behind the words, as `gather:2`, with the kinds that it may be of."""
    return [(f"{it.name}:{place}", kinds_of(it)) for it in commands()
            for place, word in enumerate(it.takes, 1) if word == "FILE"]


def short(text: str) -> str:
    """Returns the beginning of a text that stands in single quotes."""
    return text.partition(", ")[0].replace("`", "").replace("'", "’")


def option_words() -> list[tuple[str, str]]:
    """Returns the options of the launcher, each with what it does."""
    return [(word.split(" ")[0], short(about)) for words, about in options().items() for word in words.split(", ")
            if word.startswith("--")]


def bash() -> str:
    """Returns the completion for bash."""
    names = [it.name for it in commands()]
    is_kind = IS_KIND.format(name="_planet_is_kind", kinds='"$@"',
                             reading='local file=$1\n    shift\n    IFS= read -r -n 64 line <"$file"')
    cases = "\n".join(f"    {place}) _planet_files {' '.join(kinds)} ;;" for place, kinds in file_places())
    words = [*names, "help", *(it[0] for it in option_words())]
    return BASH.format(made=MADE, is_kind=is_kind, cases=cases, commands=" ".join(names), words=" ".join(words))


def zsh() -> str:
    """Returns the completion for zsh."""
    reading = "local file=$REPLY\n    IFS= read -r -k 64 -u 0 line <$file\n    line=${line%%$'\\n'*}"
    is_kind = IS_KIND.format(name="_planet_is_kind", kinds="$_planet_kinds", reading=reading)
    cases = "\n".join(f"        {place}) _planet_kinds=({' '.join(kinds)}) ;;" for place, kinds in file_places())
    known = [f"        '{it.name}:{short(it.brief)}'" for it in commands()]
    known.append("        'help:what a command takes and does'")
    flags = [f"        '{'' if word == '--explain' else '(- *)'}{word}[{about}]' \\" for word, about in option_words()]
    return ZSH.format(made=MADE, is_kind=is_kind, cases=cases, commands="\n".join(known), options="\n".join(flags))


def files() -> dict[str, str]:
    """Returns the files of tools/completion, by name."""
    return {"planet.bash": bash(), "_planet": zsh()}
