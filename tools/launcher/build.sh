# Which program a command needs, and building it, proved or without proofs. The script romain sources this file; it has set
# root, and unproved to yes or nothing.

# What was measured of a build from nothing.
PROVED_TAKES='some 65 processor minutes, half an hour or more on four processors'
UNPROVED_TAKES='about a minute and a half'

say() {
    echo "romain: $*" >&2 || true
}

fail() {
    say "$*"
    exit 1
}

# In a package the programs lie in a folder of their own, and there are no sources.
is_package() {
    [ -d "$root/programs" ]
}

# choose COMMAND: an audit is a program of its own. The words verb, data/z0 and rest make a run of it that exits with 0.
choose() {
    crate=romain verb=run rest=
    if [ "$1" = audit ]; then
        crate=romain_audit verb=audit rest='--journal data/journal'
    fi
    program=$root/crates/$crate/out/$crate
    lock=$root/.build-lock
    if [ -n "$unproved" ]; then
        program=$root/out/unproved/$crate
        lock=$root/out/unproved/.build-lock
    fi
    if is_package; then
        [ -z "$unproved" ] || fail "this is a package, which has no sources to build without proofs"
        program=$root/programs/$crate
    fi
}

# Whether the chosen program was built without proofs.
is_unproved() {
    [ -n "$unproved" ] || { is_package && grep -q 'not proved' "$program.built"; }
}

# A source that is newer than the program. The edits of must-fail/ are no part of it.
newer_source() {
    is_package || find "$root/crates" "$root/crates.txt" \( -path '*/out' -o -path '*/must-fail' \) -prune \
        -o -type f -newer "$program" -print | head -n 1
}

is_stale() {
    ! is_package || return 1
    [ ! -x "$program" ] || [ -n "$(newer_source)" ]
}

# Builds the program where it isn't built yet. One that is older than a source is built again, unless that isn't wanted.
ensure_built() {
    is_stale || return 0
    if ! may_build; then
        [ -x "$program" ] || fail "the program isn't built yet, and ROMAIN_BUILD is no"
        note="is older than $(newer_source)"
        return 0
    fi
    if ! command -v rt >/dev/null; then
        fail "to build, the Rattle kit's command rt is needed, which isn't on the PATH; README.md says where it comes from"
    fi
    mkdir -p "$(dirname "$lock")"
    exec 9>"$lock"
    if ! flock -n 9; then
        say "waiting for another build"
        flock 9
    fi
    # Whoever waited for another's build finds it done.
    if is_stale; then
        build
    fi
    exec 9>&-
}

# Whether to build: as ROMAIN_BUILD says, else as whoever sits at the terminal does. A program that isn't there is built.
may_build() {
    case ${ROMAIN_BUILD:-} in
    yes) return 0 ;;
    no) return 1 ;;
    '') ;;
    *) fail "ROMAIN_BUILD is yes or no, not $ROMAIN_BUILD" ;;
    esac
    if [ ! -x "$program" ] || [ ! -t 2 ] || ! (: </dev/tty) 2>/dev/null; then
        return 0
    fi
    takes=$PROVED_TAKES
    [ -z "$unproved" ] || takes=$UNPROVED_TAKES
    printf 'romain: %s is newer than the program. Build again? From nothing that takes %s. [y/N] ' "$(newer_source)" "$takes" >&2
    read -r wish </dev/tty || wish=
    case $wish in
    [yY]*) return 0 ;;
    *) return 1 ;;
    esac
}

# The program becomes as old as the begin of its build, so that an edit meanwhile makes it stale.
build() {
    folder=$(mktemp -d)
    waiting=
    trap 'clear_build' EXIT
    trap 'exit 130' INT
    trap 'exit 143' TERM
    sources=$(commit)
    : >"$folder/begin"
    if [ -n "$unproved" ]; then
        build_unproved
        how='not proved'
    else
        build_proved
        how=proved
    fi
    touch -r "$folder/begin" "$program"
    echo "$sources, $how, $(rt version)" >"$program.built"
    clear_build
    trap - EXIT INT TERM
}

clear_build() {
    [ -z "$waiting" ] || kill "$waiting" 2>/dev/null || true
    rm -rf "$folder"
}

# The first time crates are proved side by side, which keeps their work. Whether all is proved that the program stands on, the
# run after it decides, which builds the program.
build_proved() {
    total=$(stands_on | wc -l)
    say "proving and building $((total)) crates; from nothing that takes $PROVED_TAKES"
    (cd "$root/crates/$crate" && rt all check --jobs "$(jobs)") 2>&1 </dev/null | progress "$((total))"
    say "compiling $crate"
    if ! (cd "$root/crates/$crate" && rt run "$crate" -- "$verb" data/z0 $rest) >"$folder/log" 2>&1 </dev/null; then
        cat "$folder/log" >&2
        fail "$crate wasn't built"
    fi
}

# progress TOTAL: of what rt prints a line for each crate that it is done with. On a terminal one line is written over.
progress() {
    done=0 before='' after='\n'
    if [ -t 2 ]; then
        before='\r\033[K' after=''
    fi
    while read -r line; do
        case $line in
        '== summary') printf '%b' "$before" >&2 ;;
        '== '*)
            done=$((done + 1))
            printf '%bromain: %s done, %d of %d crates left%b' "$before" "${line#== }" $(($1 - done)) "$1" "$after" >&2
            ;;
        *': failed ('*')') say "$line" ;;
        esac
    done
}

# rt can run a crate's program without proofs, and keeps no program. It waits for its executable here, which is a pipe, and is
# copied meanwhile.
build_unproved() {
    say "building without proofs, in $UNPROVED_TAKES"
    mkdir "$folder/rt"
    mkfifo "$folder/executable"
    {
        find "$folder/rt" -name program -type f -exec cp {} "$folder/program" \;
        cat "$root/crates/$crate/data/z0"
    } >"$folder/executable" &
    waiting=$!
    status=0
    (cd "$root/crates/$crate" && TMPDIR=$folder/rt rt try -- "$verb" "$folder/executable" $rest) >"$folder/log" 2>&1 </dev/null ||
        status=$?
    if [ "$status" != 0 ] || [ ! -x "$folder/program" ]; then
        cat "$folder/log" >&2
        fail "$crate wasn't built"
    fi
    wait "$waiting" || true
    waiting=
    cp "$folder/program" "$program.new"
    mv "$program.new" "$program"
}

# The crate and those below it, a line each.
stands_on() {
    awk -v crate="$crate" '
        { sub(/#.*/, "") }
        split($0, part, ":") == 2 { split(part[1], name, " "); below[name[1]] = part[2] }
        function visit(crate,    i, count, names) {
            if (crate in seen || !(crate in below)) return
            seen[crate] = 1
            print crate
            count = split(below[crate], names, " ")
            for (i = 1; i <= count; i++) visit(names[i])
        }
        END { visit(crate) }' "$root/crates.txt"
}

# How many crates are proved at once: one for each processor, and for each 2 GiB of free memory. ROMAIN_JOBS sets it.
jobs() {
    processors=$(nproc 2>/dev/null || echo 1)
    memory=$(awk '/^MemAvailable:/ { print int($2 / 2097152) }' /proc/meminfo 2>/dev/null || true)
    least=$processors
    if [ -n "$memory" ] && [ "$memory" -lt "$least" ]; then
        least=$memory
    fi
    [ "$least" -ge 1 ] || least=1
    echo "${ROMAIN_JOBS:-$least}"
}

# What the sources are, as far as git knows.
commit() {
    if ! name=$(git -C "$root" rev-parse --short=12 HEAD 2>/dev/null); then
        echo 'commit unknown'
    elif [ -n "$(git -C "$root" status --porcelain -- crates crates.txt)" ]; then
        echo "commit $name with changes"
    else
        echo "commit $name"
    fi
}

# Of each program that is built its commit, whether it was proved, and the kit; of romain also where it isn't. Of a package that
# stands beside its programs.
version() {
    echo "version $(version_number)"
    for command in run audit; do
        for unproved in '' yes; do
            [ -z "$unproved" ] || ! is_package || continue
            choose "$command"
            name=$crate
            [ -z "$unproved" ] || name="$crate --unproved"
            if [ -x "$program" ]; then
                echo "$name: $(build_of_program)"
            elif [ "$command$unproved" = run ]; then
                echo "$name: not built"
            fi
        done
    done
}

build_of_program() {
    newer=$(newer_source)
    if [ -f "$program.built" ] && [ ! "$program" -nt "$program.built" ]; then
        told=$(cat "$program.built")
    elif [ -n "$unproved" ]; then
        told='commit unknown, not proved'
    elif is_package || [ -n "$newer" ]; then
        told='commit unknown, proved'
    else
        # rt itself builds only what is proved, and keeps no record; no source has changed since.
        told="$(commit), proved"
    fi
    echo "$told${newer:+; older than $newer}"
}
