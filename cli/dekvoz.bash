# Completion of dekvoz for bash: `source` it, or install it as share/bash-completion/completions/dekvoz.
_dekvoz() {
    local commands="example dump rules check walk handler x64 arm64 help"
    local section="--section --kind --word --base --load-base --machine --relocations --linked --json"
    local word=${COMP_WORDS[COMP_CWORD]} before=${COMP_WORDS[COMP_CWORD - 1]} command="" given options
    # `=` is a word of its own.
    if [[ $word == "=" ]]; then
        word=""
    elif [[ $before == "=" && $COMP_CWORD -gt 1 ]]; then
        before=${COMP_WORDS[COMP_CWORD - 2]}
    fi
    for given in "${COMP_WORDS[@]:1:COMP_CWORD-1}"; do
        if [[ " $commands " == *" $given "* ]]; then
            command=$given
            break
        fi
    done
    case $before in
        --kind) COMPREPLY=($(compgen -W "eh debug" -- "$word")); return ;;
        --word) COMPREPLY=($(compgen -W "2 4 8" -- "$word")); return ;;
        --machine) COMPREPLY=($(compgen -W "x86-64 aarch64 riscv arm i386" -- "$word")); return ;;
        --section) COMPREPLY=($(compgen -W ".eh_frame .debug_frame .gcc_except_table .xdata" -- "$word")); return ;;
        --fault | --functions | --relocations | --html) compopt -o filenames; COMPREPLY=($(compgen -f -- "$word")); return ;;
        --base | --load-base | --address | --record | --at | --register | --place | --packed | --first | --pc | --stack | --build-id)
            return ;;
    esac
    case $command in
        "") options="$commands --help --version" ;;
        example) options="--html" ;;
        dump) options="$section --address --operations --readelf" ;;
        rules) options="$section --address --record --at --register" ;;
        check) options="$section --address --first" ;;
        walk) options="${section/--word /} --fault --pc --stack --functions --build-id --html" ;;
        handler) options="--section --kind --word --machine --relocations --linked --json --record --at --place" ;;
        x64) options="--section --place --json" ;;
        arm64) options="--section --place --packed --json" ;;
        help) return ;;
    esac
    if [[ -z $command || $word == -* ]]; then
        COMPREPLY=($(compgen -W "$options" -- "$word"))
    else
        compopt -o filenames
        COMPREPLY=($(compgen -f -- "$word"))
    fi
}
complete -F _dekvoz dekvoz
