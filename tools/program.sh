# Finds, builds and runs a proved program of this repository. For scripts of sh: they end with `status`, which is 3 until there
# is an answer, set `top`, the repository's folder, and take this file in by `.`; then
#
#   say TEXT..          says it on standard error
#   fail TEXT..         says why on standard error and ends with status 3
#   answer STATUS TEXT  writes the text on standard output and ends with the status
#   arguments WORD..    takes a command's words: `card`, and in `chosen` those of the options `options`; --help answers `usage`
#   take_card CARD      takes a card's file for standard input; '-' is the one that is there
#   ready PROGRAM       finds the kit, and proves and builds the program where it is missing or stale
#   run                 runs the program that is ready

# Descriptors that are closed are filled, so that no other file takes their place: input with a folder, which nobody can read.
input=open output=open
true 3>&2 2>/dev/null || exec 2>/dev/null
true 2>/dev/null 3<&0 || { input=closed && exec </; }
true 2>/dev/null 3>&1 || { output=closed && exec >/dev/null; }

say() {
    printf '%s: %s\n' "${0##*/}" "$*" >&2
}

fail() {
    say "$@"
    exit 3
}

answer() { # STATUS TEXT
    [ "$output" = open ] || fail "standard output is closed"
    trap '' PIPE
    printf '%s\n' "$2" 2>/dev/null || fail "standard output could not be written"
    status=$1
    exit "$1"
}

# ---- a command's words and its card

# Options may stand before or after the card; behind `--` every word is a card.
arguments() {
    card=- cards=0 chosen='' ended=no
    for word; do
        case $ended$word in
        no--) ended=yes ;;
        no--help) answer 0 "$usage" ;;
        no-?*)
            case " $options " in
            *" $word "*) chosen=$word ;;
            *) fail "no option $word; --help says which there are" ;;
            esac
            ;;
        *) card=$word cards=$((cards + 1)) ;;
        esac
    done
    [ "$cards" -le 1 ] || fail "one card at a time, and $cards are given"
    [ -n "$card" ] || fail "the name of the card is empty"
}

# A program looks at no more: one byte beyond the longest card that loads.
longest=8485

# The card is read here, so that what is said of a read that fails has the card's name. The copy loses its name before it is
# filled, so that nothing is left behind whatever ends the script.
take_card() { # CARD
    named=$1
    if [ "$1" = - ]; then
        [ "$input" = open ] || fail "standard input is closed"
        named='standard input'
    else
        { command exec <"$1"; } 2>/dev/null || fail "no file that can be read: $1"
    fi
    trap '' HUP INT TERM
    copy=$(mktemp 2>/dev/null) && exec 3>"$copy" 4<"$copy" && rm -f "$copy" || fail "no room in ${TMPDIR:-/tmp} for the card"
    trap - HUP INT TERM
    why=$(head -c "$longest" 2>&1 >&3) || fail "$named could not be read: ${why##*: }"
    exec <&4 3>&- 4<&-
}

# ---- the kit and what a program is built from

find_kit() {
    rt=$(command -v rt) || fail "rt of the Rattle kit is not on the PATH"
    rt=$(readlink -f -- "$rt") && home=${rt%/*/*}
    { read -r identity <"$home/KIT-ID"; } 2>/dev/null || fail "the kit at $home has no KIT-ID"
}

# The folders of the crates that a program is made of, by crates.txt.
crates_of() { # PROGRAM
    awk -v wanted="$1" '
        { sub(/#.*/, ""); at = index($0, ":"); name = substr($0, 1, at - 1); gsub(/[ \t]/, "", name) }
        at { needs[name] = substr($0, at + 1) }
        function visit(name, list, n, i) {
            if (seen[name]++ || !(name in needs)) return
            print "crates/" name
            n = split(needs[name], list, " ")
            for (i = 1; i <= n; i++) visit(list[i])
        }
        END { visit(wanted) }' "$top/crates.txt"
}

# Each program as NAME.SUM. The sum is of all that the program is built from, by content: the files of its crates but those that
# rt makes, crates.txt and the kit's identity.
marked() { # PROGRAM..
    for name; do
        folders=$(crates_of "$name") && [ -n "$folders" ] || fail "crates.txt lists no crate $name"
        # shellcheck disable=SC2086
        sums=$(cd "$top" && find -L crates.txt $folders -type d -name out -prune -o -type f -exec sha256sum {} +) || fail "a source of $name cannot be read"
        sum=$(printf '%s\n' "$identity" "$sums" | LC_ALL=C sort | sha256sum) || fail "no sum of the sources of $name"
        echo "$name.${sum%% *}"
    done
}

# ---- building

# A built program is kept as target/ready/NAME.SUM, so that one that is there is the right one, whatever rt has built since.
kept=$top/target/ready

ready() { # PROGRAM
    find_kit
    program=$kept/$(marked "$1") || exit 3
    [ -x "$program" ] || build "$1"
}

# Builds, unless another call has done so meanwhile. Sources that changed meanwhile are built again.
build() { # PROGRAM
    lock "$1"
    tries=3
    while :; do
        program=$kept/$(marked "$1") || exit 3
        [ ! -x "$program" ] || break
        [ "$tries" -gt 0 ] || fail "the sources change while they are built"
        tries=$((tries - 1))
        build_with "$1"
    done
    exec 9>&-
}

# One build at a time. The lock is the kernel's and ends with its last holder: a build that was killed leaves none, and an rt
# that outlives it is waited for.
lock() { # PROGRAM
    writable "$1" || fail "a program is to be built, and $top/target or a crate's out cannot be written"
    command -v flock >/dev/null || fail "a program is to be built, and there is no flock on the PATH"
    exec 9>>"$kept/lock"
    flock -n 9 || { say "waiting for another build" && flock 9; } || fail "no lock on $kept/lock"
}

# rt keeps its work in the folders `out` of the crates.
writable() { # PROGRAM
    mkdir -p "$kept" 2>/dev/null && [ -w "$kept" ] || return
    for folder in $(crates_of "$1"); do
        mkdir -p "$top/$folder/out" 2>/dev/null && [ -w "$top/$folder/out" ] || return
    done
    true 2>/dev/null 3>>"$kept/lock"
}

# What is built with a program: for a command of bin/ the programs of all commands.
together() { # PROGRAM
    if [ ! -e "$top/bin/$1" ]; then
        echo "$1"
        return
    fi
    for command in "$top"/bin/*; do
        [ ! -f "$top/crates/${command##*/}/src/main.rt" ] || echo "${command##*/}"
    done
}

build_with() { # PROGRAM
    names=$(together "$1")
    # shellcheck disable=SC2086
    before=$(marked $names) || exit 3
    say "proving and building; the first time this takes minutes"
    : >"$kept/log"
    for name in $names; do
        prove "$name" || {
            grep -Ev '^(rt: chose|so far:|checked |statements |library |logic |(fn|struct|enum|impl|trait) .*: proved$)' "$kept/log" >&2
            fail "the program could not be built; $kept/log has all that rt said"
        }
    done
    # shellcheck disable=SC2086
    [ "$(marked $names)" = "$before" ] || { say "a source changed meanwhile" && return; }
    for mark in $before; do
        cp "$top/crates/${mark%.*}/out/${mark%.*}" "$kept/new" && mv "$kept/new" "$kept/$mark" || fail "$kept/$mark could not be written"
    done
}

# Has rt prove and build, and run the program once, on nothing; rt's lines go to a log, and of each crate that it proved a line
# to standard error too.
prove() { # PROGRAM
    ended=$({ { (cd "$top/crates/$1" && exec rt run) </dev/null 2>&1 3>&-; echo $? >&3; } | progress; } 3>&1)
    [ "$ended" = 0 ]
}

progress() {
    while IFS= read -r line; do
        printf '%s\n' "$line"
        case $line in
        "crate "*": "*) proved=${line#crate } && proved=${proved%%:*} ;;
        logic=proved*) say "$proved proved" ;;
        esac
    done >>"$kept/log"
}

run() {
    "$program"
}
