#compdef pipecheck
# Completion of `pipecheck` for zsh, as the body of the function _pipecheck. ./install puts it where zsh looks, under
# PREFIX/share/zsh/site-functions; that folder has to be in fpath before compinit is called.
local line
local -a said described endings
said=("${(@f)$(python3 -E -S ${functions_source[_pipecheck]:A:h:h}/tools completing "${(@Q)words[2,CURRENT-1]}" 2>/dev/null)}")
for line in $said; do
    case $line in
    (word\ *) described+=("${${line#word }/$'\t'/:}") ;;
    (file\ *) endings+=("*${line#file }") ;;
    (file) endings+=('*') ;;
    esac
done
if (( $#described )); then
    _describe -t commands 'pipecheck' described
fi
if (( $#endings > 1 )); then
    _files -g "(${(j:|:)endings})"
elif (( $#endings )); then
    # in parentheses it would be taken for what is asked of files
    _files -g "$endings"
fi
