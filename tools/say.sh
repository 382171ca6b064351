# tools/say.sh: for every command of this repository to read (`.`), in front of all else: its usage, what it says on standard error, what it needs, and that it is at work. The usage of
# a command is the comment at its top, and its first word the command's name; what stands in the usage with one or two dashes in front is a word of the command. Status 2 is for wrong words, and for what
# cannot be done here.

# in place of a stream that is closed, one that fails the same way, so that no file opened below takes its number
{ true 3<&0; } 2>/dev/null || exec 0>/dev/null
{ true 3>&1; } 2>/dev/null || exec 1</dev/null
{ true 3>&2; } 2>/dev/null || exec 2</dev/null

usage=$(sed -n '1d; /^#/!q; s/^# \{0,1\}//p' "$0")
self=${usage%%[ :]*}

# Prints the usage where that is asked for, and ends.
helps() {
    case ${1-} in --help | -h) printf '%s\n' "$usage" && exit 0 ;; esac
}

say() { printf '%s: %s\n' "$self" "$*" >&2 || true; }

# Ends: it cannot be done here, and why.
cannot() {
    say "$*"
    exit 2
}

# Ends: these are no words of the command, or not within their limits.
wrong() { # [WHY]
    [ $# -eq 0 ] || say "$*"
    printf '%s\n' "$usage" >&2 || true
    exit 2
}

# Ends where there are words.
no_words() { [ $# -eq 0 ] || wrong "there are no words to $self"; }

# Ends where a word begins with a dash that the usage does not have; what stands behind --text or --only may begin so.
known() {
    before=''
    for word; do
        case $before:$word in
        --text:* | --only:*) ;;
        *:-*[!A-Za-z-]*) wrong "there is no word $word" ;;
        *:-*) case " $usage" in *[!A-Za-z-]"$word"[!A-Za-z-]*) ;; *) wrong "there is no word $word" ;; esac ;;
        esac
        before=$word
    done
}

# Ends where what stands behind a word is no number within its limits.
number() { # WORD LEAST MOST NUMBER
    case ${4-} in '' | *[!0-9]* | 0?*) wrong "$1 wants a number from $2 to $3" ;; esac
    [ ${#4} -le ${#3} ] && [ "$4" -ge "$2" ] && [ "$4" -le "$3" ] || wrong "$1 wants a number from $2 to $3"
}

# Ends where one of these commands is not there; skrifa is the folder of its sources, below the repository, and cc what CC names.
needs() {
    for need; do
        tool=$need
        [ "$need" != cc ] || tool=${CC:-cc}
        tool=${tool%% *} sources=${KHS_SKRIFA_SRC:-../shared/docs/src}
        ! command -v "$tool" >/dev/null || continue
        case $need in
        skrifa) [ -d "$sources" ] || cannot "skrifa's sources are not in $sources; KHS_SKRIFA_SRC names the folder that has them" ;;
        rt) cannot "there is no rt: the Rattle kit is needed, rattle-kit-13f" ;;
        cargo) cannot "there is no cargo: Rust is needed" ;;
        cc) cannot "there is no $tool: a C compiler is needed" ;;
        *) cannot "there is no $need, which is needed" ;;
        esac
    done
}

# Reads standard input from a file, if one is named.
reads() { # [FILE]
    [ $# -gt 0 ] || return 0
    [ -r "$1" ] || cannot "$1 cannot be read"
    exec <"$1"
}

# Runs a command, and says what is being done where that takes longer than a second, and again every ten.
during() { # WHAT COMMAND..
    doing=$1 ended=0
    shift
    (
        sleep 1 >/dev/null 2>&1
        while kill -0 $$ 2>/dev/null; do
            say "$doing"
            sleep 10 >/dev/null 2>&1
        done
    ) &
    watcher=$!
    "$@" || ended=$?
    kill "$watcher" 2>/dev/null || :
    wait "$watcher" 2>/dev/null || :
    return "$ended"
}

# Runs a command whose words go to a file, and to standard error too where it fails.
logged() { # FILE COMMAND..
    file=$1
    shift
    "$@" >"$file" 2>&1 </dev/null || { cat "$file" >&2; return 1; }
}

# Proves crates and what they lean on, as far as that is not done yet.
proves() { # NAME..
    needs rt
    mkdir -p target
    during "what is not proved yet is being proved, each crate once; from nothing that takes twenty minutes and more" logged "target/$1.log" checks "$@" || exit 1
}

# Lets rt check crates, each in its own folder, where it keeps what it proved.
checks() { # NAME..
    for crate; do
        (cd "crates/$crate" && rt check) || return 1
    done
}

# Compiles a package of this repository that leans on the given Rust.
compiles() { # FOLDER [OPTION OF CARGO..]
    package=$1
    shift
    needs cargo skrifa
    during "$package is being compiled" cargo build --quiet --manifest-path "$package/Cargo.toml" "$@" || cannot "$package cannot be compiled, for what stands above"
}

helps "$@"
