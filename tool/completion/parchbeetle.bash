# Completion of `parchbeetle` for bash. To have it: source this file, or put it as `parchbeetle` into
# ~/.local/share/bash-completion/completions/.

_parchbeetle() {
    local word=${COMP_WORDS[COMP_CWORD]} before=${COMP_WORDS[COMP_CWORD - 1]}
    local command=${COMP_WORDS[1]} options=
    COMPREPLY=()
    if [ "$COMP_CWORD" -eq 1 ]; then
        mapfile -t COMPREPLY < <(compgen -W "check budget table run build rescue encode decode --help --version" -- "$word")
        return
    fi
    case $before in
    --svg | --html | --write | --names)
        mapfile -t COMPREPLY < <(compgen -f -- "$word")
        return
        ;;
    --color)
        mapfile -t COMPREPLY < <(compgen -W "auto always never" -- "$word")
        return
        ;;
    --random | --slices)
        return
        ;;
    esac
    case $command in
    check) options="--all-k --json --color" ;;
    budget) options="--write --json" ;;
    table) options="--svg --json --color" ;;
    run) options="--random --slices --gantt --svg --html --json --color" ;;
    build) options="--write --json" ;;
    rescue) options="--write --json" ;;
    encode) options="--write --json" ;;
    decode) options="--names --json" ;;
    esac
    case $word in
    -*) mapfile -t COMPREPLY < <(compgen -W "$options --help --version" -- "$word") ;;
    *) mapfile -t COMPREPLY < <(compgen -f -- "$word") ;;
    esac
}

complete -o filenames -F _parchbeetle parchbeetle
