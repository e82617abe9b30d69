# bash completion for jpstore, written by tools/protocol.py from docs/protocol.toml

_jpstore() {
    local cur prev words cword
    _init_completion || return
    if ((cword == 1)); then
        COMPREPLY=($(compgen -W "new format serve check repair salvage dump copy upgrade mem help --help --version" -- "$cur"))
        return
    fi
    case $prev in
    --sectors | --size | --format | --mode | --id | --batch | --pump | --history) return ;;
    esac
    case ${words[1]}$cur in
    new-*) COMPREPLY=($(compgen -W "--size --id --why --help" -- "$cur")) ;;
    format-*) COMPREPLY=($(compgen -W "--sectors --format --mode --id --sparse --why --help" -- "$cur")) ;;
    serve-*) COMPREPLY=($(compgen -W "--batch --pump --history --strict --why --help" -- "$cur")) ;;
    check-*) COMPREPLY=($(compgen -W "--strict --deep --why --help" -- "$cur")) ;;
    repair-*) COMPREPLY=($(compgen -W "--why --help" -- "$cur")) ;;
    salvage-*) COMPREPLY=($(compgen -W "--frames --why --help" -- "$cur")) ;;
    dump-*) COMPREPLY=($(compgen -W "--read-only --strict --why --help" -- "$cur")) ;;
    copy-*) COMPREPLY=($(compgen -W "--sectors --format --id --strict --why --help" -- "$cur")) ;;
    upgrade-*) COMPREPLY=($(compgen -W "--format --id --strict --why --help" -- "$cur")) ;;
    mem-*) COMPREPLY=($(compgen -W "--sectors --format --history --help" -- "$cur")) ;;
    help*) COMPREPLY=($(compgen -W "new format serve check repair salvage dump copy upgrade mem" -- "$cur")) ;;
    new* | format* | serve* | check* | repair* | salvage* | dump* | copy* | upgrade*) _filedir ;;
    esac
}
complete -F _jpstore jpstore
