# shellcheck shell=bash
# Completion of `pipecheck` for bash. ./install puts it where bash looks; in a checkout: . script/completion.bash
_pipecheck_says=$(readlink -f "${BASH_SOURCE[0]}") && _pipecheck_says=${_pipecheck_says%/*/*}/tools

_pipecheck() {
    local current=${COMP_WORDS[COMP_CWORD]} kind what
    COMPREPLY=()
    while read -r kind what; do
        case $kind$what in
        word*) mapfile -t -O ${#COMPREPLY[@]} COMPREPLY < <(compgen -W "${what%%$'\t'*}" -- "$current") ;;
        file) mapfile -t -O ${#COMPREPLY[@]} COMPREPLY < <(compgen -f -- "$current") ;;
        file.*)
            mapfile -t -O ${#COMPREPLY[@]} COMPREPLY < <(compgen -f -X "!*$what" -- "$current"; compgen -d -- "$current")
            ;;
        esac
        [ "$kind" = word ] || compopt -o filenames 2>/dev/null
    done < <(python3 -E -S "$_pipecheck_says" completing "${COMP_WORDS[@]:1:COMP_CWORD-1}" 2>/dev/null)
    # a folder may have come more than once
    [ ${#COMPREPLY[@]} -lt 2 ] || mapfile -t COMPREPLY < <(printf '%s\n' "${COMPREPLY[@]}" | sort -u)
}
complete -F _pipecheck pipecheck
