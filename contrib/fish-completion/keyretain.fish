# Completion in fish for keyretain's programs: the options that `--help` lists, the commands of keyretain, and behind
# `--` another command.

function __keyretain_options
    set -l words (commandline -opc)
    $words[1] --help 2>/dev/null | string match -rg '^ +(?:-\w, )?(--[a-z-]+)'
end

function __keyretain_commands
    set -l words (commandline -opc)
    $words[1] --help 2>/dev/null | sed -n '/^Commands/,/^$/ s/^  \([a-z]*\).*/\1/p' |
        string match -rv '^(hello|context|moment)$'
end

function __keyretain_other
    set -l words (commandline -opc)
    set -e words[1..(contains -i -- -- $words)]
    complete -C (string join ' ' -- (string escape -- $words) (commandline -ct))
end

for program in keyretain keyretaind keyretain-session keyretain-guard keyretain-agent keyretain-status
    complete -c $program -f
    complete -c $program -n 'not contains -- -- (commandline -opc)' -a '(__keyretain_options)'
    complete -c $program -n 'contains -- -- (commandline -opc)' -a '(__keyretain_other)'
    complete -c $program -n 'contains -- (commandline -opc)[-1] --socket --listen --daemon --folder' -F
end
complete -c keyretain -a '(__keyretain_commands)'
