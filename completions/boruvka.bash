# Completion of boruvka's arguments in bash. `make install` puts it where bash-completion looks for it.
# To try it: source completions/boruvka.bash

_boruvka() {
    local word=${COMP_WORDS[COMP_CWORD]} before=${COMP_WORDS[COMP_CWORD - 1]} option given
    COMPREPLY=()
    # bash splits --workers=2 into three words
    if [[ $word == = ]]; then
        word=
    elif [[ $before == = ]]; then
        before=${COMP_WORDS[COMP_CWORD - 2]}
    fi
    for given in "${COMP_WORDS[@]:1:COMP_CWORD - 1}"; do
        # after -- there are only FILEs
        [[ $given == -- ]] && return
    done
    case $before in
        --workers) COMPREPLY=($(compgen -W "0 1 2 4 8 16 32 64" -- "$word")) ;;
        --threads) COMPREPLY=($(compgen -W "1 2 4 8 16 32 64" -- "$word")) ;;
        --shards) COMPREPLY=($(compgen -W "1 2 4 8 16 32 64 128 256 512 1024 2048 4096" -- "$word")) ;;
        *)
            [[ $word == -* ]] || return
            # no option may be given twice
            for option in --plain --threads --workers --shards --report --progress -h --help -V --version; do
                [[ " ${COMP_WORDS[*]:1:COMP_CWORD - 1} " == *" $option "* ]] || COMPREPLY+=($(compgen -W "$option" -- "$word"))
            done
            return
            ;;
    esac
    # a number isn't a FILE (compopt works only during a completion)
    compopt +o default 2> /dev/null
}

# if there is nothing to offer, bash offers files
complete -o default -F _boruvka boruvka
