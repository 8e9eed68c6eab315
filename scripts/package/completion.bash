# Completion of btest for bash: the command, and then for each place the files or numbers that belong there.

# Completes a folder or a file whose name has one of these endings, or any file where there is neither.
_btest_files() {
    local word=$1 endings=$2
    mapfile -t COMPREPLY < <(compgen -d -- "$word"; compgen -f -- "$word" | grep -Ei "\.($endings)\$")
    [ ${#COMPREPLY[@]} -gt 0 ] || mapfile -t COMPREPLY < <(compgen -f -- "$word")
    compopt -o filenames
}

# The names of what a command takes, in their order; the last one may be repeated.
_btest_places() {
    case $1 in
        chain | ident) echo CHAIN BSDL ;;
        device) echo BSDL ;;
        cover | svf | walk) echo CHAIN NETS BSDL ;;
        diagnose | batch) echo WORKERS "$1" CHAIN NETS BSDL ;;
        groups) echo LOG CHAIN NETS BSDL ;;
        make) echo NUMBER ;;
    esac
}

_btest() {
    local word=${COMP_WORDS[COMP_CWORD]} places place
    COMPREPLY=()
    if [ "$COMP_CWORD" = 1 ]; then
        mapfile -t COMPREPLY < <(compgen -W 'batch chain cover device diagnose groups ident make svf walk' -- "$word")
        return
    fi
    read -ra places <<<"$(_btest_places "${COMP_WORDS[1]}")"
    place=${places[COMP_CWORD - 2]-}
    # One NUMBER and one text of a device; elsewhere the texts of all devices follow.
    case ${COMP_WORDS[1]} in
        device | make) ;;
        *) place=${place:-BSDL} ;;
    esac
    case $place in
        CHAIN) _btest_files "$word" 'chain' ;;
        NETS) _btest_files "$word" 'nets' ;;
        LOG | diagnose) _btest_files "$word" 'log' ;;
        batch) _btest_files "$word" 'logs' ;;
        BSDL) _btest_files "$word" 'bsd|bsdl|bsm' ;;
        WORKERS) mapfile -t COMPREPLY < <(compgen -W '1 2 4 8 16 32 64' -- "$word") ;;
        NUMBER) mapfile -t COMPREPLY < <(compgen -W '1 10 100 255' -- "$word") ;;
    esac
}

complete -F _btest btest
