# What ./panel, ./checkmask, ./readings and ./assemble share. Each sets `home`, `command`, `operands`, `help` and `statuses`.
#
# A program's exit status tells a failed write alone, and a missing file counts as empty. So a command copies its input into a
# folder of its own, runs the program there, judges what it printed, and then writes that to standard output.
# Exit status: 0 done or passed, 1 refused or a fault named, 2 usage or input and output. It is 2 until the answer is out, so
# that nothing unforeseen passes for an answer.
set -eu
unset CDPATH                    # cd would look there
status=2 folder='' beside='' program=''
brief=no names=()
mask=4096 longest=65535         # bytes of a mask, and at most of a script or a text

# A pipe would take the place of a standard file that is closed, and be read or written for it.
closed=''
{ : 3<&0; } 2> /dev/null || { closed+=input; exec 0< /dev/null; }
{ : 3>&1; } 2> /dev/null || { closed+=output; exec 1> /dev/null; }
{ : 3>&2; } 2> /dev/null || exec 2> /dev/null

remove() { # all that is temporary; a second signal does not end this
    trap '' HUP INT TERM
    [ -z "$folder" ] || rm -rf -- "$folder" || :
    [ -z "$beside" ] || rm -f -- "$beside" || :
}
trap 'remove; exit "$status"' EXIT                      # also where a signal ends the command
trap 'remove; trap - HUP; kill -s HUP $$' HUP           # bash sends one more to the whole group, at any time

say() { printf '%s: %s\n' "$command" "$*" >&2 || :; }

fail() {
    say "$@"
    exit 2
}

usage_error() {
    say "$@"
    printf 'usage: %s %s\n' "$command" "$operands" >&2 || :
    exit 2
}

shown() { # a name on one line: where it would not print as it is, in a shell's words
    if [[ -n $1 && $1 != *[![:print:]]* ]]; then printf %s "$1"; else printf %q "$1"; fi
}

put() { # standard input to standard output, all of it
    local why code=0
    if [[ $closed = *output* ]]; then fail 'standard output: it is closed'; fi
    { why=$(LC_ALL=C cat 2>&1 >&3 3>&-); } 3>&1 || code=$?
    [ $code -ne 0 ] || return 0
    [ $code -ne 141 ] || exit 2         # SIGPIPE: whoever read has gone, and asks for no words
    fail "standard output: ${why##*: }"
}

help_text() {
    printf 'usage: %s %s\n\n%s\n' "$command" "$operands" "$help"
    printf '  %-10s  %s\n' --help 'this text' --version 'commit and kit' -- 'what follows are names'
    printf '\nExit status: %s, 2 usage or input and output.\n' "$statuses"
}

version_text() {
    local commit=unknown kit
    if [ -e "$home/.git" ]; then
        commit=$(GIT_OPTIONAL_LOCKS=0 git -C "$home" describe --always --dirty 2> /dev/null) || commit=unknown
    fi
    kit=$(rt version 2> /dev/null) || kit=unknown
    printf '%s of HT1130\ncommit %s\nkit %s\n' "$command" "$commit" "$kit"
}

begin() { # COUNT ARGUMENT..: options, and so many names, from 1 on for `+`
    local count=$1 inputs=0 name why
    shift
    while [ $# -gt 0 ]; do
        case $1 in
            --help) put < <(help_text); status=0; exit ;;
            --version) put < <(version_text); status=0; exit ;;
            --brief) [ "$command" = checkmask ] || usage_error "no option $1"; brief=yes ;;
            --) shift; names+=("$@"); break ;;
            -?*) usage_error "no option $(shown "$1")" ;;
            *) names+=("$1") ;;
        esac
        shift
    done
    if [ "$count" = + ]; then
        [ ${#names[@]} -ge 1 ] || usage_error 'a name is wanted'
    else
        [ ${#names[@]} -eq "$count" ] || usage_error "$count names are wanted, not ${#names[@]}"
    fi
    for name in "${names[@]}"; do
        if [ "$name" = - ]; then inputs=$((inputs + 1)); fi
    done
    [ $inputs -le 1 ] || usage_error 'standard input, -, can be read once'
    program=crates/$command/out/$command            # as rt builds it, by rt ci or tools/build
    [ -x "$home/$program" ] || fail "$program is missing; build it by: tools/build $command"
    why=$(LC_ALL=C mktemp -d -- "${TMPDIR:-/tmp}/ht1130.XXXXXXXX" 2>&1) || fail "no folder for temporary files: ${why##*: }"
    folder=$why
}

# In the next two a pipe tells who failed: the reader by status 3, the program by its own, the writer of the copy by 4. A program
# whose pipe is broken has words too; why it broke cat says.

fetch() { # NAME LIMIT FILE: a file, or standard input for -, where the program finds it; one byte over the limit is enough
    local why code=0
    if [[ $1 = - && $closed = *input* ]]; then say '-: it is closed'; return 1; fi
    why=$(export LC_ALL=C; set -o pipefail
        { { head -c $(($2 + 1)) -- "$1" || exit 3; } | { cat > "$folder/$3" || exit 4; }; } 2>&1) || code=$?
    case $code in
        0) return 0 ;;
        4) say "$(shown "$1"): no room for a temporary file: ${why##*: }" ;;
        *) say "$(shown "$1"): ${why##*: }" ;;
    esac
    return 1
}

run() { # the program in its folder: all that it prints in the file `answer`, the first line in `first`
    local why code=0
    why=$(export LC_ALL=C; set -o pipefail
        { (cd -- "$folder" && exec "$home/$program") < /dev/null | { cat > "$folder/answer" || exit 4; }; } 2>&1) || code=$?
    case $code in
        0) ;;
        4) why=${why#*cat: } why=${why%%$'\n'*}; fail "no room for a temporary file: ${why##*: }" ;;
        *) fail "$program ended with status $code${why:+: ${why##*: }}" ;;
    esac
    first=''
    IFS= read -r first < "$folder/answer" || :
}

unexpected() { fail "$program printed what is no answer: $(shown "$first")"; }

size() { wc -c < "$folder/$1"; }

sentence() { # the words of `refused N` or `fault F`, in the list that rust/ht1130 has too
    local line
    while IFS= read -r line; do
        case $line in "$1: "*) printf %s "${line#"$1: "}"; return ;; esac
    done 2> /dev/null < "$home/rust/ht1130/src/refusals.txt" || :
    printf %s "$1"
}

script_place() { # OFFSET: where the script is refused
    local low high kind kinds=('' ' (power-on)' ' (Run)' ' (pins)' ' (INT)' ' (TMCLK)' ' (RES)')
    if [ "$(size script.bin)" -gt $longest ]; then
        printf 'over 65,535 bytes'
    elif read -r low high < <(od -An -tu1 -j $(($1 + 2)) -N 2 "$folder/script.bin" 2> /dev/null) && [ -n "$high" ]; then
        kind=$((low + 256 * high))
        printf 'byte %s, kind %s%s' "$1" $kind "${kinds[kind]-}"
    else
        printf 'byte %s' "$1"           # the script ends before the kind
    fi
}

run_script() { # PATTERN: runs MASK under SCRIPT; what is no refusal starts with such a line
    fetch "${names[0]}" $mask mask.bin || exit 2
    fetch "${names[1]}" $longest script.bin || exit 2
    run
    if [[ $first =~ ^refused\ 1\ at\ 0$ ]]; then
        put < "$folder/answer"
        say "$(shown "${names[0]}"): $(sentence 'refused 1')"
        status=1
    elif [[ $first =~ ^(refused\ [0-9]+)\ at\ ([0-9]+)$ ]]; then
        local key=${BASH_REMATCH[1]} offset=${BASH_REMATCH[2]}
        put < "$folder/answer"
        say "$(shown "${names[1]}"): $(script_place "$offset"): $(sentence "$key")"
        status=1
    elif [[ $first =~ $1 ]]; then
        put < "$folder/answer"
        status=0
    else
        unexpected
    fi
}
