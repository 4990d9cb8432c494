# Completion of hept and its tools for bash; made by tools/make-files.

# the nodes of a file
_hept_nodes() {
    [ -f "$1" ] && sed -n 's/.*\(^\|[^A-Za-z0-9_]\)\(node\|machine\)[ \t][ \t]*\([a-z][A-Za-z0-9_$]*\).*/\3/p' -- "$1" 2>/dev/null
}

# files whose names end so, and folders
_hept_files() {
    local cur=$1 ending
    compgen -d -- "$cur"
    shift
    for ending; do
        compgen -f -X "!*.$ending" -- "$cur"
    done
}

_hept_words() {
    local cur=$1 command=$2 at=$3 file=$4 options=
    case $command in
        check) options="--print" ;;
        run) options="--contract" ;;
    esac
    if [[ $cur == -* ]]; then
        COMPREPLY=($(compgen -W "$options" -- "$cur"))
    elif [[ $command == sweep ]]; then
        COMPREPLY=()
    elif [[ $at == 1 ]]; then
        if [[ $command == exec ]]; then
            COMPREPLY=($(_hept_files "$cur" obc))
        else
            COMPREPLY=($(_hept_files "$cur" ept))
        fi
    elif [[ $at == 2 && $command != compile && $command != past ]]; then
        COMPREPLY=($(compgen -W "$(_hept_nodes "$file")" -- "$cur"))
    else
        COMPREPLY=($(compgen -f -- "$cur"))
    fi
}

_hept() {
    local cur=${COMP_WORDS[COMP_CWORD]} word at=0 file= i
    COMPREPLY=()
    compopt -o filenames 2>/dev/null
    if [[ $COMP_CWORD == 1 ]]; then
        COMPREPLY=($(compgen -W "check run compile exec prove verify sweep past save resume" -- "$cur"))
        return
    fi
    for ((i = 2; i < COMP_CWORD; i++)); do
        word=${COMP_WORDS[i]}
        [[ $word == -* ]] && continue
        at=$((at + 1))
        [[ $at == 1 ]] && file=$word
    done
    _hept_words "$cur" "${COMP_WORDS[1]}" $((at + 1)) "$file"
}

_hept_tool() {
    local cur=${COMP_WORDS[COMP_CWORD]} options=
    COMPREPLY=()
    compopt -o filenames 2>/dev/null
    case ${1##*/} in
        hept-explain) options="--all --help" ;;
        hept-wave) options="--contract --svg --vcd --lines --width --ascii --help" ;;
        hept-try) options="--false --all --instants --runs --seed --help" ;;
        hept-why) options="--all --trace --help" ;;
    esac
    if [[ ${1##*/} == hept-explain ]]; then
        if [[ $COMP_CWORD == 1 ]]; then
            COMPREPLY=($(compgen -W "check run compile exec prove verify sweep past save resume E1 E2 E3 E4 E5 E6 E7 E8 E9 E10 E11 E12 L1 L2 L3 L4 K1 K2 K3 O1 O2 M1 M2 usage $options" -- "$cur") $(_hept_files "$cur" ept obc))
        else
            _hept
        fi
    elif [[ $cur == -* ]]; then
        COMPREPLY=($(compgen -W "$options" -- "$cur"))
    elif [[ $COMP_CWORD == 1 ]]; then
        COMPREPLY=($(_hept_files "$cur" ept obc))
    else
        COMPREPLY=($(compgen -W "$(_hept_nodes "${COMP_WORDS[1]}")" -- "$cur"))
    fi
}

complete -F _hept hept
complete -F _hept_tool hept-explain hept-wave hept-try hept-why
