# Completion for bash, made of the words of the help. The script romain sources this file.

completion() {
    cat <<'PART'
_romain() {
    local word=${COMP_WORDS[COMP_CWORD]} before=${COMP_WORDS[COMP_CWORD - 1]} command=1 options
    # bash takes --mode=coop for three words.
    if [[ $word == = ]]; then
        word=
    elif [[ $before == = ]]; then
        before=${COMP_WORDS[COMP_CWORD - 2]}
    fi
    while [[ ${COMP_WORDS[command]} == --* && $command -lt $COMP_CWORD ]]; do
        command=$((command + 1))
    done
    case $before in
PART
    of_words values | while read -r option values; do
        echo "    $option) COMPREPLY=(\$(compgen -W '$values' -- \"\$word\")) && return ;;"
    done
    cat <<'PART'
    esac
    case ${COMP_WORDS[command]} in
PART
    of_words options | while read -r command options; do
        echo "    $command) options='$options' ;;"
    done
    cat <<PART
    esac
    if [[ \$command -eq \$COMP_CWORD ]]; then
        options='$(of_words options | cut -d ' ' -f 1 | tr '\n' ' ')$(of_launcher | tr '\n' ' ')'
    elif [[ \$word != -* ]]; then
        options=
    fi
    COMPREPLY=(\$(compgen -W "\$options" -- "\$word"))
}
complete -o default -F _romain romain
PART
}

# The options of the script itself.
of_launcher() {
    help | awk '/^[A-Z]+$/ { section = $0 } section == "LAUNCHER" && /^    --/ { print $1 }'
}
