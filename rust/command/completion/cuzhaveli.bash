# Completion of cuzhaveli for bash. Made by `make manual` from the table of commands.
_cuzhaveli() {
    local word=${COMP_WORDS[COMP_CWORD]} before=${COMP_WORDS[COMP_CWORD - 1]} words='' files=''
    if [ "$COMP_CWORD" -eq 1 ]; then
        words='create put list get remove patch mount board encode decode info check rebuild repair plan judge stripe space bill help --help --version'
    else
        case ${COMP_WORDS[1]} in
        create)
            case $before in
            -p) words='' files='' ;;
            -k) words='' files='' ;;
            -s) words='' files='' ;;
            -u) words='' files='' ;;
            -g) words='' files='' ;;
            *) words='-p -k -s -u -g --json --same-device --help' files=yes ;;
            esac ;;
        put)
            case $before in
            *) words='-q --json -n --help' files=yes ;;
            esac ;;
        list)
            case $before in
            *) words='--json --help' files=yes ;;
            esac ;;
        get)
            case $before in
            *) words='-q --json --help' files=yes ;;
            esac ;;
        remove)
            case $before in
            *) words='--json --help' files=yes ;;
            esac ;;
        patch)
            case $before in
            --at) words='' files='' ;;
            *) words='-q --json --at --help' files=yes ;;
            esac ;;
        mount)
            case $before in
            --cache) words='' files='' ;;
            --patience) words='' files='' ;;
            *) words='--allow-other --cache --foreground --patience --help' files=yes ;;
            esac ;;
        board)
            case $before in
            --list) words='' files=yes ;;
            *) words='--json --list --help' files=yes ;;
            esac ;;
        encode)
            case $before in
            -p) words='' files='' ;;
            -k) words='' files='' ;;
            -s) words='' files='' ;;
            -u) words='' files='' ;;
            -g) words='' files='' ;;
            --overwrite) words='' files=yes ;;
            *) words='-p -k -s -u -g -q --json --overwrite --help' files=yes ;;
            esac ;;
        decode)
            case $before in
            --overwrite) words='' files=yes ;;
            *) words='-q --json --overwrite --help' files=yes ;;
            esac ;;
        info)
            case $before in
            *) words='--json --help' files=yes ;;
            esac ;;
        check)
            case $before in
            --rate) words='' files='' ;;
            --from) words='' files='' ;;
            *) words='-q --json --rate --from --help' files=yes ;;
            esac ;;
        rebuild)
            case $before in
            --plan) words='balanced fewest own rows' files=yes ;;
            --relieve) words='P Q' files='' ;;
            --rate) words='' files='' ;;
            --rates) words='' files='' ;;
            --disk) words='P Q' files='' ;;
            --new) words='P Q' files='' ;;
            --from) words='' files=yes ;;
            --overwrite) words='' files=yes ;;
            *) words='-q --json -n --plan --relieve --test --rate --rates --disk --new --from --overwrite --help' files=yes ;;
            esac ;;
        repair)
            case $before in
            --rate) words='' files='' ;;
            --overwrite) words='' files=yes ;;
            *) words='-q --json --rate --overwrite --help' files=yes ;;
            esac ;;
        plan)
            case $before in
            -p) words='' files='' ;;
            -k) words='' files='' ;;
            -d) words='P Q' files='' ;;
            --relieve) words='P Q' files='' ;;
            *) words='-p -k -d --balanced --fewest --relieve --json --svg --text --csv --help' files='' ;;
            esac ;;
        judge)
            case $before in
            -p) words='' files='' ;;
            -k) words='' files='' ;;
            -d) words='P Q' files='' ;;
            *) words='-p -k -d --json --help' files=yes ;;
            esac ;;
        stripe)
            case $before in
            -p) words='' files='' ;;
            -k) words='' files='' ;;
            -s) words='' files='' ;;
            --disk) words='P Q' files='' ;;
            --missing) words='' files=yes ;;
            --row) words='' files='' ;;
            --servers) words='' files='' ;;
            --server) words='' files='' ;;
            --loss) words='' files='' ;;
            *) words='-p -k -s --disk --test --missing --draw --row --servers --server --loss --json --help encode check scrub rebuild rebuild-cells update server-write server-rebuild' files='' ;;
            esac ;;
        space)
            case $before in
            -p) words='' files='' ;;
            -k) words='' files='' ;;
            -s) words='' files='' ;;
            -u) words='' files='' ;;
            -g) words='' files='' ;;
            --free) words='' files='' ;;
            --bytes) words='' files='' ;;
            *) words='-p -k -s --images -u -g --json --free --bytes --help' files=yes ;;
            esac ;;
        bill)
            case $before in
            --rates) words='' files='' ;;
            --bytes) words='' files='' ;;
            *) words='--rates --bytes --json --help' files='' ;;
            esac ;;
        help)
            case $before in
            --completion) words='bash zsh fish' files='' ;;
            *) words='--man --completion --help create put list get remove patch mount board encode decode info check rebuild repair plan judge stripe space bill help' files='' ;;
            esac ;;
        esac
    fi
    mapfile -t COMPREPLY < <(compgen -W "$words" -- "$word")
    if [ -n "$files" ] && [ "${word#-}" = "$word" ]; then
        mapfile -t -O "${#COMPREPLY[@]}" COMPREPLY < <(compgen -f -- "$word")
    fi
}
complete -o filenames -F _cuzhaveli cuzhaveli
