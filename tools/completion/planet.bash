# Completion of planet for bash, by scripts/pages/editor: source it, or have it in a folder of bash-completion.

# whether a file is of one of the kinds: a program, a frame in hex, or a file of lines of this header
_planet_is_kind() {
    local line='' kind
    local file=$1
    shift
    IFS= read -r -n 64 line <"$file"
    for kind in "$@"; do
        case $kind in
        program) [[ $file == *.plan || $line == svc\ * || $line == fun\ * || $line == exception\ * ]] && return ;;
        frame) [[ $line == 504[cC]414[eE]* ]] && return ;;
        *) [[ $line == "planet $kind "[12] ]] && return ;;
        esac
    done
    return 1
}

_planet_files() {
    local file found=()
    while IFS= read -r file; do
        if [[ -d $file ]] || { [[ -f $file ]] && _planet_is_kind "$file" "$@"; }; then
            found+=("$file")
        fi
    done < <(compgen -f -- "$word")
    [ "${#found[@]}" -gt 0 ] || mapfile -t found < <(compgen -f -- "$word")
    compopt -o filenames 2>/dev/null
    COMPREPLY=("${found[@]}")
}

_planet() {
    local word=${COMP_WORDS[COMP_CWORD]} first=1
    COMPREPLY=()
    [[ ${COMP_WORDS[1]} != --explain || $COMP_CWORD -eq 1 ]] || first=2
    if [ "$COMP_CWORD" -eq "$first" ]; then
        local known='check show replay node inject fleet grow cut gather port audit'
        [ "$first" -eq 2 ] || known='check show replay node inject fleet grow cut gather port audit help --help --version --explain --build'
        mapfile -t COMPREPLY < <(compgen -W "$known" -- "$word")
        return
    fi
    case ${COMP_WORDS[first]}:$((COMP_CWORD - first)) in
    check:1) _planet_files program ;;
    show:1) _planet_files frame ;;
    replay:1) _planet_files schedule log ;;
    node:1) _planet_files node ;;
    inject:1) _planet_files inject ;;
    fleet:1) _planet_files fleet ;;
    cut:1) _planet_files cut ;;
    gather:2) _planet_files log ;;
    port:1) _planet_files port ;;
    audit:1) _planet_files audit ;;
    help:1) mapfile -t COMPREPLY < <(compgen -W 'check show replay node inject fleet grow cut gather port audit' -- "$word") ;;
    esac
}

complete -F _planet planet
