# shellcheck shell=bash
# Completion of typetool's command line for bash: the commands and flags that its help tells.
_typetool() {
    local word=${COMP_WORDS[COMP_CWORD]} last=${COMP_WORDS[COMP_CWORD - 1]} command=${COMP_WORDS[1]} words
    if [ "$COMP_CWORD" = 1 ] || [ "$command" = help ]; then
        words=$(typetool help 2>/dev/null | sed -n '/^Commands:/,/^$/s/^  \([a-z]*\) .*/\1/p')
        if [ "$COMP_CWORD" = 1 ]; then words="$words --help --version"; else words=${words//help/}; fi
        mapfile -t COMPREPLY < <(compgen -W "$words" -- "$word")
        return
    fi
    # bash cuts a word at its =, as in --profile=vt100
    if [ "$word" = = ]; then
        word=
    elif [ "$last" = = ]; then
        last=${COMP_WORDS[COMP_CWORD - 2]}
    fi
    case $last in
    --profile) mapfile -t COMPREPLY < <(compgen -W 'vt100 vt102 xterm auto' -- "$word") ;;
    --size) mapfile -t COMPREPLY < <(compgen -W '80x24 100x30 120x40 132x43 160x50' -- "$word") ;;
    --at | --from | --to | --every | --title) COMPREPLY=() ;;
    *)
        if [[ $word == -* ]]; then
            words=$(typetool help "$command" 2>/dev/null | sed -n 's/^  *\(-h, \)\{0,1\}\(--[a-z]*\) .*/\2/p')
            mapfile -t COMPREPLY < <(compgen -W "$words" -- "$word")
        else
            mapfile -t COMPREPLY < <(compgen -f -- "$word")
        fi
        ;;
    esac
}
complete -o filenames -F _typetool typetool
