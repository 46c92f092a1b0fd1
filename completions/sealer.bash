# Completions of sealer(1) for bash. tools/make_options.py writes the parts between its comments, from the options' rows in the sources;
# tools/check_completions.sh holds them against --help.

_sealer() {
    local current=${COMP_WORDS[COMP_CWORD]} before=${COMP_WORDS[COMP_CWORD - 1]} command='' at only_files='' words='' cut=''
    # bash cuts words at '='
    if [ "$current" = = ]; then
        current='' cut=1
    elif [ "$before" = = ] && [ "$COMP_CWORD" -ge 2 ]; then
        before=${COMP_WORDS[COMP_CWORD - 2]} cut=1
    fi
    for ((at = 1; at < COMP_CWORD; at++)); do
        case ${COMP_WORDS[at]} in
            --) [ -z "$command" ] || only_files=1 ;;
            -*) ;;
            *) [ -n "$command" ] || command=${COMP_WORDS[at]} ;;
        esac
    done
    COMPREPLY=()
    if [ -z "$only_files" ] && [ -n "$command" ]; then
        # make_options.py writes from here: values
        case $before$cut in
            --progress1) _sealer_words 'terminal always' "$current"; return ;;
        esac
        case $before in
            --key | --files-from | --to | --against | --ledger | --witness | --journal) _sealer_files "$current"; return ;;
            --workers | --lanes) _sealer_words 'auto 1 2 4 8 16' "$current"; return ;;
            --into | --spool | --journal-in) _sealer_folders "$current"; return ;;
            --max-bytes | --max-chunks) _sealer_words 'max' "$current"; return ;;
            --label | --wait | --device) return ;;
            --window) _sealer_words '1 2 4 8 16 32 64 128 256' "$current"; return ;;
            --depth) _sealer_words '1 2 4 8 16 32 64' "$current"; return ;;
            --exponent) _sealer_words '12 13 14 15 16 17 18 19 20' "$current"; return ;;
        esac
        # make_options.py writes to here
    fi
    case $command in
        # make_options.py writes from here: words
        '') words='seal pipe unpipe open verify show audit ledger help --help -h --version -V' ;;
        seal) words='--key --workers --verbose --json --files-from --null --quote --keep-going --quiet --progress --ledger
                    --no-new-ledger --wait --device --witness --new-witness --max-bytes --lanes --window --into --parents
                    --skip-existing --sync --private --exponent --label --journal --journal-in --help -h' ;;
        pipe) words='--key --workers --verbose --json --ledger --no-new-ledger --wait --device --witness --new-witness --depth
                    --max-chunks --force-terminal --exponent --label --journal --journal-in --help -h' ;;
        unpipe) words='--key --workers --verbose --json --progress --max-bytes --spool --label --force-terminal --help -h' ;;
        open) words='--key --workers --verbose --json --files-from --null --quote --keep-going --quiet --progress --max-bytes
                    --label --to --into --parents --skip-existing --sync --private --help -h' ;;
        verify) words='--key --workers --verbose --json --files-from --null --quote --keep-going --quiet --progress --max-bytes
                    --label --show --against --into --parents --help -h' ;;
        show) words='--verbose --json --files-from --null --quote --keep-going --help -h' ;;
        audit) words='--verbose --json --against --files-from --null --quote --keep-going --help -h' ;;
        ledger) words='--ledger --key --verbose --json --against --files-from --null --quote --keep-going --help -h' ;;
        help) words='seal pipe unpipe open verify show audit ledger help' ;;
        # make_options.py writes to here
        *) return ;;
    esac
    case $only_files$current:$command in
        -*:* | *: | *:help) _sealer_words "$words" "$current" ;;
        # make_options.py writes from here: files
        *:seal) _sealer_files "$current" ;;
        *:unpipe) _sealer_files "$current" ;;
        *:open) _sealer_files "$current" .stm ;;
        *:verify) _sealer_files "$current" ;;
        *:show) _sealer_files "$current" ;;
        *:audit) _sealer_files "$current" ;;
        *:ledger) _sealer_files "$current" ;;
        # make_options.py writes to here
    esac
}

# _sealer_files BEGINNING [END]: the names with this beginning, of files with this end and of folders
_sealer_files() {
    local name
    while IFS= read -r name; do
        if [ -d "${name/#~\//$HOME/}" ] || [[ $name == *"${2:-}" ]]; then COMPREPLY+=("$name"); fi
    done < <(compgen -f -- "$1")
    compopt -o filenames 2>/dev/null
}

# _sealer_folders BEGINNING: the folders with this beginning
_sealer_folders() {
    mapfile -t COMPREPLY < <(compgen -d -- "$1")
    compopt -o filenames 2>/dev/null
}

# _sealer_words WORDS BEGINNING: those of the words that have this beginning
_sealer_words() { mapfile -t COMPREPLY < <(compgen -W "$1" -- "$2"); }

complete -F _sealer sealer
