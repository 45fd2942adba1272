# Completes the words of nrmatch in bash: its options, a few of their values, and names of files.
_nrmatch() {
    local word=$2 before=$3
    case $before in
        --workers) mapfile -t COMPREPLY < <(compgen -W '1 2 4 8 16 32 64' -- "$word") ;;
        --orders) mapfile -t COMPREPLY < <(compgen -W '1 10 100 1000' -- "$word") ;;
        --budget) mapfile -t COMPREPLY < <(compgen -W '1000000 10000000 100000000' -- "$word") ;;
        *)
            case $word in
                -*) mapfile -t COMPREPLY < <(compgen -W '--workers --budget --orders --set-aside --help --version' -- "$word") ;;
                *) mapfile -t COMPREPLY < <(compgen -f -- "$word") ;;
            esac
            ;;
    esac
}
complete -o filenames -F _nrmatch nrmatch
