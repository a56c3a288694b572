# What the scripts at the repository's top and in tests/ share. Sourced, not run, before the script goes to another folder: for the top
#
#     top=$(cd "$(dirname "$0")" && pwd) || exit 2
#     . "$top/scripts/shared.sh"

name=${0##*/}
script=$(cd "$(dirname "$0")" && pwd)/$name

# say WORDS..: a line on the standard error, in the script's name
say() {
    echo "$name: $*" >&2
}

# usage: the comment at the head of the script
usage() {
    awk 'NR > 1 { if (!/^#/) exit; sub(/^# ?/, ""); print }' "$script"
}

# wrong_usage WHY..: what is wrong with the command line, and the lines of the head that show it
wrong_usage() {
    say "$@"
    usage | awk '/^usage:/ { shown = 1 } /^$/ { shown = 0 } shown' >&2
    exit 2
}

# help_if_asked WORDS..: prints the usage where the first word asks for it
help_if_asked() {
    case "${1-}" in
    -h | --help)
        usage
        exit 0
        ;;
    esac
}

# needs TOOL..: ends the script where a tool is not installed
needs() {
    local tool
    for tool in "$@"; do
        if ! command -v "$tool" >/dev/null; then
            [ "$tool" != rt ] || tool='rt, the command of the Rattle kit,'
            say "$tool is not installed"
            exit 2
        fi
    done
}

# crates_of CRATE: the crates of the repository that CRATE is built from, by crates.txt, itself last
crates_of() {
    awk -v wanted="$1" '
        function visit(crate, words, count, k) {
            if (!(crate in below) || crate in seen) return
            seen[crate] = 1
            count = split(below[crate], words, " ")
            for (k = 1; k <= count; k++) visit(words[k])
            print crate
        }
        { sub(/#.*/, "") }
        index($0, ":") { crate = $1; sub(/:.*/, "", crate); sub(/^[^:]*:/, ""); below[crate] = $0 }
        END { visit(wanted) }' "$top/crates.txt"
}

# is_current FILE CRATE: whether FILE is there and no older than what CRATE is built from
is_current() {
    local crate parts=("$top/crates.txt")
    [ -f "$1" ] || return 1
    for crate in $(crates_of "$2"); do
        parts+=("$top/crates/$crate"/src "$top/crates/$crate"/specs "$top/crates/$crate"/proofs)
    done
    [ -z "$(find "${parts[@]}" -newer "$1" -print -quit 2>/dev/null)" ]
}

# elapsed START: the time since START seconds, in words
elapsed() {
    local seconds=$((SECONDS - $1))
    echo "$((seconds / 60)) min $((seconds % 60)) s"
}

# moving_line TEXT: TEXT in place of the line that the cursor is on, cut where the terminal ends
moving_line() {
    local width
    width=$(tput cols 2>/dev/null) || width=80
    printf '\r\033[K%s' "${1:0:width - 1}" >&2
}

# follow CRATE START LOG: reads what rt prints on the way to CRATE, keeps it in LOG, and shows how far it has come: on a terminal as one
# line that moves, elsewhere as a line for each crate that was proved. rt says which crate it begins, and ends with a line on its modules;
# of a crate that has not changed it says nothing. Crates are numbered in the order in which they are built from each other.
follow() {
    local start=$2 log=$3 crates total since=$SECONDS running='' number line='' part status terminal=''
    crates=$(crates_of "$1")
    total=$(wc -w <<<"$crates")
    [ ! -t 2 ] || terminal=yes
    while :; do
        IFS= read -r -t 1 part
        status=$?
        line+=$part
        if [ "$status" -eq 0 ]; then
            printf '%s\n' "$line" >>"$log"
            if [[ $line =~ ^'rt: chose --jobs '[0-9]+' for '([A-Za-z0-9_]+)$ ]]; then
                running=${BASH_REMATCH[1]} since=$SECONDS
            elif [[ $line =~ ^'crate '([A-Za-z0-9_]+)': modules ' ]]; then
                number=$(grep -n -x "${BASH_REMATCH[1]}" <<<"$crates" | cut -d: -f1)
                [ -n "$terminal" ] || say "${number:-?} of $total proved: ${BASH_REMATCH[1]} ($((SECONDS - since)) s)"
                running=''
            fi
            line=''
        elif [ "$status" -le 128 ]; then
            break
        elif [ -n "$terminal" ] && [ -n "$running" ]; then
            # A second without a line.
            number=$(grep -n -x "$running" <<<"$crates" | cut -d: -f1)
            moving_line "$name: proving ${number:-?} of $total: $running ($(elapsed "$start"))"
        fi
    done
    [ -z "$terminal" ] || moving_line ""
}

# rt_shown CRATE START LOG WORDS..: runs rt in the crate's folder, and shows how far it has come. The standard input is not for rt.
rt_shown() {
    (cd "$top/crates/$1" && exec rt "${@:4}") </dev/null 2>&1 | follow "$1" "$2" "$3"
    return "${PIPESTATUS[0]}"
}

# build KIND CRATE: proves what is not proved yet of CRATE and all below it, and writes the program target/bin/CRATE or the archive
# target/staticlib/libCRATE.a. Ends the script where that fails, with all that rt said. rt links a program in order to run it: so it is
# asked for its usage.
build() {
    local kind=$1 crate=$2 log=$top/target/$name.log start=$SECONDS made words status
    needs rt
    mkdir -p "$top/target/bin" "$top/target/staticlib" && : >"$log" && : >"$log.start" || exit 2
    say "proving the $kind $crate and what it is built from, $(crates_of "$crate" | wc -l) crates; from nothing this takes minutes"
    if [ "$kind" = program ]; then
        words=(run -- --help) made=$crate
    else
        words=(lib) made=lib$crate.a
    fi
    rt_shown "$crate" "$start" "$log" "${words[@]}"
    status=$?
    if [ "$status" -ne 0 ] || ! cp "$top/crates/$crate/out/$made" "$(built "$kind" "$crate")"; then
        cat "$log" >&2
        say "the $kind $crate could not be built"
        exit 2
    fi
    # What was changed while this ran is newer than what was built.
    touch -r "$log.start" "$(built "$kind" "$crate")"
    say "the $kind $crate is proved and built ($(elapsed "$start"))"
}

# built KIND CRATE: the file that is built
built() {
    case $1 in
    program) echo "$top/target/bin/$2" ;;
    archive) echo "$top/target/staticlib/lib$2.a" ;;
    esac
}

# build_if_older KIND CRATE: builds where the file is missing or older than what it is built from
build_if_older() {
    is_current "$(built "$1" "$2")" "$2" || build "$1" "$2"
}

# build_rust PACKAGE: the program of a package of the Rust side, over the archive of the whole decoder. KAFSILLUN_LIB_DIR may name a folder
# that has that archive already.
build_rust() {
    needs cargo
    [ -n "${KAFSILLUN_LIB_DIR-}" ] || build_if_older archive kafsillun_c
    [ -x "$top/host/target/release/$1" ] || say "compiling the Rust side; the first time takes a minute"
    (cd "$top/host" && cargo build --release --offline --quiet -p "$1") || { say "$1 could not be built"; exit 2; }
}
