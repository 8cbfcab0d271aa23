# Completion of `cookies` for bash: source it, or install it as share/bash-completion/completions/cookies.
_cookies() {
    local word=${COMP_WORDS[COMP_CWORD]} before=${COMP_WORDS[COMP_CWORD - 1]} options=
    if [ "$word" = = ]; then # bash has made three words of --format=
        word=
    elif [ "$before" = = ] && [ "$COMP_CWORD" -ge 3 ]; then
        before=${COMP_WORDS[COMP_CWORD - 2]}
    fi
    case $before in
        --to) mapfile -t COMPREPLY < <(compgen -W 'json jsonl ron sqlite txt' -- "$word"); return ;;
        --format | --from)
            case ${COMP_WORDS[1]} in
                set | remove | purge) mapfile -t COMPREPLY < <(compgen -W 'json jsonl ron sqlite txt' -- "$word") ;;
                *) mapfile -t COMPREPLY < <(compgen -W 'json jsonl ron sqlite txt browser firefox playwright' -- "$word") ;;
            esac
            return ;;
        --now | --domain | --set-cookie) return ;;
    esac
    if [ "$COMP_CWORD" = 1 ]; then
        mapfile -t COMPREPLY < <(compgen -W 'show header explain set remove purge convert help --help --version' -- "$word")
        return
    fi
    case ${COMP_WORDS[1]} in
        show) options='--json --skip-malformed --format' ;;
        header) options='--suffixes --only-listed --strict --cross-site --skip-malformed --format' ;;
        explain) options='--set-cookie --suffixes --only-listed --strict --cross-site --skip-malformed --format' ;;
        set) options='--suffixes --only-listed --strict --format' ;;
        remove) options='--format' ;;
        purge) options='--expired --session --domain --format' ;;
        convert) options='--skip-malformed --skip-unrepresentable --from --to' ;;
        help) mapfile -t COMPREPLY < <(compgen -W 'show header explain set remove purge convert' -- "$word"); return ;;
    esac
    case $word in
        -*) mapfile -t COMPREPLY < <(compgen -W "$options --now --help" -- "$word") ;;
        *) mapfile -t COMPREPLY < <(compgen -f -- "$word") ;;
    esac
}
complete -o filenames -F _cookies cookies
