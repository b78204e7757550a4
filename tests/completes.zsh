# Prints what zsh offers for the last word of each line, one a line, and `end` after those of a line.
#
#     zsh -f completes.zsh FOLDER LINE..      FOLDER has the function _pipecheck
#
# A shell on a terminal of its own completes the line by a widget, and `compadd` says what it is given.
zmodload zsh/zpty
zpty line zsh -f -i
zpty -w line "PS1= PS2= fpath=(${(q)1} \$fpath); autoload -Uz compinit && compinit -u -D; setopt no_beep zle
compadd() {
    [[ \${@[1,(i)(-|--)]} != *-(O|A|D)\ * ]] || { builtin compadd \"\$@\"; return }
    local -a found
    builtin compadd -A found \"\$@\"
    print -rl -- 'candidate '\$^found
    builtin compadd \"\$@\"
}
show() { print begin; _main_complete; print -- '<end>'; zle kill-buffer }
zle -C show complete-word show
bindkey '^I' show
print ready"
local text asked
while zpty -r line text; do [[ $text != *ready* ]] || break; done
for asked in "${@:2}"; do
    # what stands there goes first
    zpty -w -n line $'\C-u'"$asked"$'\t'
    while zpty -r line text; do
        case $text in
        (*candidate\ *) print -r -- "${${text##*candidate }%%[$'\r\n']*}" ;;
        # a word of the line that is typed may have these letters
        (*'<end>'*) break ;;
        esac
    done
    print end
done
zpty -d line
