# Completion of typetool's command line for fish: the commands that its help tells, with their sentences, and their flags.
function __typetool_commands
    typetool help 2>/dev/null | string match -rg '^  ([a-z]+  .*)' | string replace -r '  +' \t
end
function __typetool_has
    set -l words (commandline -opc)
    test (count $words) -gt 1; and typetool help $words[2] 2>/dev/null | string match -qr "^ +(-h, )?--$argv[1] "
end
set -l alone 'test (count (commandline -opc)) = 1'
complete -c typetool -n 'not __fish_seen_subcommand_from help' -s h -l help -d 'Print help'
complete -c typetool -n $alone -s V -l version -d 'Print version'
complete -c typetool -n $alone -f -a '(__typetool_commands)'
complete -c typetool -n '__fish_seen_subcommand_from help' -f -a '(__typetool_commands | string match -v "help*")'
complete -c typetool -n '__typetool_has at' -x -l at -d 'The moment, in seconds'
complete -c typetool -n '__typetool_has escaped' -l escaped -d 'A text that draws the screen again'
complete -c typetool -n '__typetool_has state' -l state -d 'A text that makes a terminal what it was'
complete -c typetool -n '__typetool_has last' -l last -d 'Begin at the last session'
complete -c typetool -n '__typetool_has headless' -l headless -d 'Put a header line before the typescript'
complete -c typetool -n '__typetool_has from' -x -l from -d 'Chunks that are due after this, in seconds'
complete -c typetool -n '__typetool_has to' -x -l to -d 'Chunks that are due by this, in seconds'
complete -c typetool -n '__typetool_has profile' -x -l profile -a 'vt100 vt102 xterm auto' -d 'Which terminal plays'
complete -c typetool -n '__typetool_has size' -x -l size -a '80x24 100x30 120x40 132x43 160x50' -d 'Columns, x and lines of the terminal of today'
complete -c typetool -n '__typetool_has title' -x -l title -d 'The title of the page'
complete -c typetool -n '__typetool_has every' -x -l every -d 'Chunks between terminals that are kept'
