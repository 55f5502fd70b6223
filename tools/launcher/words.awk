# What the text of romain --help, which is read, says of the words of a command.
#
#   awk -f words.awk -- wrong WORD..      the first word that is wrong, and the command's usage
#   awk -f words.awk -- files WORD..      the files that the words name, each after its option or EXE, in the order of reading
#   awk -f words.awk -- options           each command with its options, a line each
#   awk -f words.awk -- values            each option that has a few values alone with these, a line each

BEGIN {
    what = ARGV[1]
    for (i = 2; i < ARGC; i++)
        words[++count] = ARGV[i]
    ARGC = 1
}

/^[A-Z]+$/ { section = $0 }
section == "USAGE" && $1 == "romain" && $2 ~ /^[a-z]/ { read_usage() }
section == "WORDS" || section == "OPTIONS" { read_range() }

END {
    for (name in general)
        for (command in takes_general)
            if (!((command, name) in takes))
                takes[command, name] = general[name]
    if (what == "wrong")
        print wrong_sentence() ((words[1] in usage) ? "Usage: " usage[words[1]] : "Commands: " commands_of() "; see romain --help")
    else if (what == "files")
        tell_files()
    else if (what == "values")
        tell_values()
    else
        tell_options()
}

# romain NAME PLACE.. --option VALUE [--option VALUE] [--flag] [OPTION]..
function read_usage(    i, name, is_needed) {
    usage[$2] = substr($0, index($0, "romain"))
    order[++commands] = $2
    for (i = 3; i <= NF; i++) {
        if ($i == "[OPTION]..") {
            takes_general[$2] = 1
        } else if ($i ~ /^\[?--/) {
            is_needed = $i !~ /^\[/
            name = $i
            gsub(/[][]/, "", name)
            takes[$2, name] = $i ~ /\]$/ || i == NF ? "" : $(++i)
            sub(/\]/, "", takes[$2, name])
            if (is_needed)
                needed[$2, name] = takes[$2, name]
        } else {
            place[$2, ++places[$2]] = $i
        }
    }
}

# A word or an option, and below it what it is; an option of some commands alone says so.
function read_range() {
    if ($0 ~ /^    [-A-Z]/) {
        about = $1
        value = $2
        is_first = 1
    } else if (is_first && $0 ~ /^        /) {
        is_first = 0
        if (section == "OPTIONS" && $1 != "of")
            general[about] = value
        if (match($0, /[0-9]+ to [0-9]+/) || match($0, /([0-9]+, )*[0-9]+ or [0-9]+/))
            range[about] = substr($0, RSTART, RLENGTH)
        else if (match($0, /[a-z]+ or [a-z]+, default/))
            range[about] = substr($0, RSTART, RLENGTH - length(", default"))
    }
}

function wrong_sentence(    trouble) {
    trouble = wrong()
    return trouble (trouble ~ /[?]$/ ? " " : ". ")
}

function commands_of(    i, line) {
    for (i = 1; i <= commands; i++)
        line = line (i > 1 ? ", " : "") order[i]
    return line
}

function wrong(    i, command, word, name, given, trouble) {
    if (count == 0)
        return "no command is given"
    command = words[1]
    if (!(command in usage))
        return command " is no command"
    for (i = 2; i <= count && trouble == ""; i++) {
        word = words[i]
        if (word == "")
            trouble = "a word is empty"
        else if (word ~ /^--./)
            trouble = wrong_option(command, i)
        else if (word ~ /^-/)
            trouble = word " is no option of " command
        else if (++given > places[command])
            trouble = word " is a word too many"
        else
            trouble = wrong_value(place[command, given], word)
        i += skipped
        skipped = 0
    }
    if (trouble == "")
        trouble = unsuited()
    return trouble != "" ? trouble : missing(command, given)
}

# Of a run's journal one form is told. A cooperative run has neither faults nor scrubs, and a smaller limit.
function unsuited() {
    if (("--journal" in seen) && ("--record" in seen))
        return "--record stands in the place of --journal"
    if (values["--mode"] != "coop")
        return ""
    if ("--faults" in values)
        return "--faults does not go with --mode coop"
    if (values["--scrub"] + 0 != 0)
        return "--scrub does not go with --mode coop"
    return values["--limit"] + 0 > 4000000000 ? "--limit is " values["--limit"] ", and may be 1 to 4000000000 with --mode coop" : ""
}

# Of the option that stands at a place; its value may be the next word.
function wrong_option(command, at,    name, given, has_value) {
    name = given = words[at]
    sub(/=.*/, "", name)
    has_value = sub(/^[^=]*=/, "", given)
    if (name == "--help")
        return "--help stands alone, and not behind a command: romain --help"
    if (!((command, name) in takes))
        return name " is no option of " command meant(command, name)
    if (seen[name]++)
        return name " stands twice"
    if (takes[command, name] == "")
        return has_value ? name " takes no value" : ""
    if (!has_value) {
        given = at < count ? words[at + 1] : ""
        skipped = 1
    }
    if (given == "" || given ~ /^-/)
        return name " needs a value"
    values[name] = given
    return wrong_value(name, given)
}

# The option that may have been meant: one that is written almost so.
function meant(command, name,    pair, parts, best, least, apart) {
    least = 3
    for (pair in takes) {
        split(pair, parts, SUBSEP)
        if (parts[1] != command)
            continue
        apart = index(parts[2], name) == 1 && length(name) > 3 ? 0 : distance(name, parts[2])
        if (apart < least) {
            least = apart
            best = parts[2]
        }
    }
    return best == "" ? "" : "; did you mean " best "?"
}

# How many letters have to be put in, left out or changed to make one word of the other.
function distance(one, other,    i, k, row, before, kept, changed) {
    for (k = 0; k <= length(other); k++)
        row[k] = k
    for (i = 1; i <= length(one); i++) {
        before = row[0]
        row[0] = i
        for (k = 1; k <= length(other); k++) {
            kept = row[k]
            changed = before + (substr(one, i, 1) != substr(other, k, 1))
            row[k] = least_of(changed, least_of(row[k] + 1, row[k - 1] + 1))
            before = kept
        }
    }
    return row[length(other)]
}

function least_of(one, other) {
    return one < other ? one : other
}

function wrong_value(name, given,    ends) {
    if (!(name in range))
        return ""
    if (range[name] ~ /[0-9]/ && given !~ /^[+]?[0-9]+$/)
        return name " is " given ", which is no number"
    if (split(range[name], ends, " to ") == 2 ? given + 0 < ends[1] + 0 || given + 0 > ends[2] + 0 : !is_among(given, range[name]))
        return name " is " given ", and may be " range[name]
}

function is_among(given, choices,    i, count, each) {
    count = split(choices, each, /, | or /)
    for (i = 1; i <= count; i++)
        if (each[i] ~ /[0-9]/ ? given + 0 == each[i] + 0 : given == each[i])
            return 1
}

function missing(command, given,    pair, name) {
    if (given < places[command])
        return place[command, given + 1] " is missing"
    for (pair in needed) {
        split(pair, name, SUBSEP)
        if (name[1] == command && !(name[2] in seen))
            return name[2] " " needed[pair] " is missing"
    }
    return "a word is wrong"
}

function tell_files(    i, name, given, file, kinds, count_of_kinds) {
    for (i = 2; i <= count; i++) {
        name = given = words[i]
        sub(/=.*/, "", name)
        if (words[i] !~ /^--/)
            file[place[words[1], ++given_places]] = words[i]
        else if (takes[words[1], name] != "")
            file[name] = sub(/^[^=]*=/, "", given) ? given : words[++i]
    }
    count_of_kinds = split("EXE --input --faults --plan --journal", kinds, " ")
    for (i = 1; i <= count_of_kinds; i++)
        if (kinds[i] in file)
            print kinds[i] "\t" file[kinds[i]]
}

function tell_values(    name, choices) {
    for (name in range)
        if (name ~ /^--/ && range[name] ~ / or /) {
            choices = range[name]
            gsub(/, | or /, " ", choices)
            print name " " choices
        }
}

function tell_options(    i, pair, name, line) {
    for (i = 1; i <= commands; i++) {
        line = order[i]
        for (pair in takes) {
            split(pair, name, SUBSEP)
            if (name[1] == order[i])
                line = line " " name[2]
        }
        print line
    }
}
