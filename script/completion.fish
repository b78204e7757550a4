# Completion of `pipecheck` for fish. ./install puts it where fish looks; in a checkout: source script/completion.fish
set -g __pipecheck_says (dirname (dirname (realpath (status filename))))/tools

function __pipecheck
    set -l before (commandline -opc)
    for line in (python3 -E -S $__pipecheck_says completing $before[2..-1] 2>/dev/null)
        set -l what (string split -m 1 ' ' -- $line)
        if test $what[1] = word
            echo $what[2]
        else
            # files with the ending, and folders
            set -l ending (string escape --style=regex -- $what[2])
            __fish_complete_path (commandline -ct) | string match -r -- "^[^\t]*(?:$ending|/)(?:\t.*)?\$"
        end
    end
end
complete -c pipecheck -f -a '(__pipecheck)'
