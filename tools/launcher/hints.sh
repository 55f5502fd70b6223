# A line after the report of a run that was refused or ended badly, which says what helps. The script romain sources this file;
# it has set root, program, unproved and self, the script's own name.

tab=$(printf '\t')
PAGE='; docs/TROUBLE.md has more'

run() {
    status=0
    "$program" "$@" || status=$?
}

# The program's standard output stays what it is; its report passes through awk, which keeps the lines that hints are made of.
run_with_hint() {
    folder=$(mktemp -d)
    trap 'rm -rf "$folder"' EXIT
    trap 'exit 130' INT
    trap 'exit 143' TERM
    report=$(readlink /proc/self/fd/2 || true)
    {
        {
            run "$@" 2>&1 >&3 3>&-
            echo "$status" >"$folder/status"
        } | awk -v ends="$folder/ends" '{ print } /^(votes|answer) / { print >ends }' >&2
    } 3>&1
    status=$(cat "$folder/status")
    line=$(hint "$@" 2>/dev/null || true)
    [ -z "$line" ] || say "$line"
}

# hint WORD..: the line for the run of these words, if there is one
hint() {
    if [ "${1:-}$status" = audit236 ]; then
        is_record "$(of_words files "$@" | sed -n "s/^--journal$tab//p")" ||
            echo "were the run's options given? They have to be its own but for --mode, and EXE, --input and --faults its files; a journal of --record says them itself$PAGE"
        return
    fi
    answer=$(sed -n 's/^answer //p' "$folder/ends")
    case $answer in
    words) of_words wrong "$@" ;;
    store) unread "$@" ;;
    exe\ *) row "${answer#exe }" ;;
    too-long) too_long "$@" ;;
    faults\ *) bad_line --faults ${answer#faults } "$@" ;;
    other\ *) of_other "${answer#other }" ;;
    plan\ *) bad_line "$(plan_of "$1")" ${answer#plan } "$@" ;;
    limit\ *) [ "$1" != run ] || of_limit "$@" ;;
    unended) echo "the plan was run to its end, and the program could go on: its run ended by a limit, or the journal is not whole, or one of another program$PAGE" ;;
    no-step\ *) echo "the journal is of another program or another input: EXE and --input have to be those of its run$PAGE" ;;
    no-memory | sink\ *) echo "docs/TROUBLE.md says what to do" ;;
    trap\ * | deadlock | differ | no-majority) [ "$1" != run ] || audit_of "$@" ;;
    *) [ "$1" != run ] || ! grep -q '^votes .* copies [1-9].* struck 0 ' "$folder/ends" || races_of "$@" ;;
    esac
}

# of_words WHAT [WORD..]: what the help says of them
of_words() {
    help | awk -f "$root/tools/launcher/words.awk" -- "$@"
}

# Which file can't be read, and the system's reason. A pipe or a terminal isn't opened again.
unread() {
    of_words files "$@" | while IFS=$tab read -r _ file; do
        if [ -p "$file" ] || [ -c "$file" ]; then
            continue
        fi
        if ! reason=$(LC_ALL=C cat -- "$file" 2>&1 >/dev/null </dev/null); then
            echo "$file can't be read: ${reason##*: }"
            break
        fi
    done
}

# The file that is longer than its kind may be.
too_long() {
    of_words files "$@" | while IFS=$tab read -r name file; do
        case $name in
        EXE) most=8388608 ;;
        --input) most=1048576 ;;
        --faults) most=65536 ;;
        *) most=16777216 ;;
        esac
        if [ ! -f "$file" ] || [ "$(wc -c <"$file")" -gt "$most" ]; then
            echo "$file is longer than $most bytes$PAGE"
            break
        fi
    done
}

# of_other WORD: what has to be as a record says
of_other() {
    case $1 in
    exe) echo "EXE is not the executable of the record's run$PAGE" ;;
    input | faults) echo "--$1 is not the file that the record's run had, or it had none$PAGE" ;;
    *) echo "--$1 is not that of the record's run; the audit of a record needs no such option$PAGE" ;;
    esac
}

# is_record FILE: whether its first line is that of a record
is_record() {
    [ -f "$1" ] && sed 1q "$1" | grep -qx 'romain 3 \(vote\|coop\)'
}

plan_of() {
    case $1 in
    audit) echo --journal ;;
    *) echo --plan ;;
    esac
}

# bad_line OPTION LINE CODE WORD..: what is wrong with a line of a fault list or of a plan
bad_line() {
    option=$1 line=$2 code=$3
    shift 3
    file=$(of_words files "$@" | sed -n "s/^$option$tab//p")
    [ -f "$file" ] || return 0
    ends=yes
    if [ "$line" = "$(awk 'END { print NR }' "$file")" ] && [ -n "$(tail -c 1 "$file")" ]; then
        ends=
    fi
    kind='an entry'
    if [ "$line" -le 10 ] && is_record "$file"; then
        kind="a line of a record's head"
    fi
    sed -n "${line}p" "$file" | awk -v kind="$kind" -v option="$option" -v line="$line" -v code="$code" -v ends="$ends" -v file="$file" '
        function why() {
            if (code == 3) return "is one too many: a list has at most 256"
            if (code == 2) return "has a number out of its range" (option == "--faults" ? ", or a replica that does not run" : "")
            if (/\r$/) return "ends as on Windows, by CR LF and not by LF alone"
            if (/^[ \t]*$/) return "is empty"
            if (/^[ \t]*(#|\/\/)/) return "is a remark, and there are none"
            if (option != "--faults" && line == 1) return "is no beginning of a journal: the run needs --record or --journal"
            if (!ends) return "has no line end, which the last line needs, too"
            if (/\t|  |^ | $/) return "has more than one space, or a tab, between two words or at an end"
            return "has not the form of " (option == "--faults" ? "a fault: R T N reg X B, R T N pc B or R T N mem A B" : kind)
        }
        { print "line " line " of " file " " why() }' | sed "s|\$|$PAGE|"
}

of_limit() {
    echo "the program was not done: a larger --limit lets it take more steps$PAGE, also of loops without an end"
}

# row CODE: of an executable that isn't accepted, what docs/GUESTS.md says of the code
row() {
    awk -F ' *[|] *' -v code="$1" '
        /^## / { is_there = $0 == "## Why a file is refused" }
        is_there && $2 == code { gsub(/[*][*]/, ""); print "the file " $3 ": " $4; exit }' "$root/docs/GUESTS.md"
}

# What audits a run: its own journal where that went to a file, else a record of the same run once more.
audit_of() {
    shift
    again=$(with_record "$@")
    journal=$(journal_of "$@")
    case " $* " in
    *' --journal '*) ! is_kept "$@" || of=with_options ;;
    esac
    audit=$(${of:-with_files} "$@")
    echo "to see what happened:$again$audit --journal$journal"
}

# The audit of a run with its options. The journal says its mode, so an audit has no --mode. Its value is the next word, or stands
# behind the sign.
with_options() {
    before=
    for word; do
        shift
        case $before:$word in
        --mode:* | *:--mode | *:--mode=*) ;;
        *) set -- "$@" "$word" ;;
        esac
        before=$word
    done
    command_of audit "$@"
}

# The audit of a run whose record says its options.
with_files() {
    of_files audit --faults "$@"
}

# of_files VERB OPTION WORD..: the command of the files of a run, of which this one is another than EXE and --input
of_files() {
    verb=$1 other=$2
    shift 2
    of_words files run "$@" | {
        set --
        while IFS=$tab read -r name file; do
            case $name in
            EXE) set -- "$file" ;;
            --input | "$other") set -- "$@" "$name" "$file" ;;
            esac
        done
        command_of "$verb" "$@"
    }
}

races_of() {
    shift
    echo "copies without a struck fault: a fault of the hardware, or a race:$(with_record "$@")$(of_files races --input "$@") --plan$(journal_of "$@")"
}

# The run once more with its record, where its journal isn't in a file.
with_record() {
    is_kept "$@" || echo "$(command_of run "$@") --record 2>record;"
}

journal_of() {
    if is_kept "$@"; then
        as_typed "$report"
    else
        as_typed record
    fi
}

is_kept() {
    case " $* " in
    *' --journal '* | *' --record '*) [ -f "$report" ] ;;
    *) false ;;
    esac
}

command_of() {
    as_typed "$self" ${unproved:+--unproved} "$@"
}

# The words as a shell reads them, each after a space; of --journal and --record it is said elsewhere whether they stand there.
as_typed() {
    for word; do
        case $word in
        --journal | --record) ;;
        '' | *[!A-Za-z0-9_./:=,+@%-]*) printf " '%s'" "$(printf %s "$word" | sed "s/'/'\\\\''/g")" ;;
        *) printf ' %s' "$word" ;;
        esac
    done
}
