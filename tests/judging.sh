# shellcheck shell=bash
# How first_use.sh and first_desk.sh judge a case. They source this file at the top of the project, with `title` set. It makes a folder `room`
# for a test's files, in it the folder for temporary files, and counts `cases`.

export LC_ALL=C
room=$(mktemp -d)
trap 'rm -rf "$room"' EXIT
chmod 711 "$room"
mkdir -m 1777 "$room/tmp"
export TMPDIR=$room/tmp
cases=0

wrong() { # WHAT
    printf '%s: %s: %s\n-- status: %s\n-- standard output:\n' "$title" "$case" "$1" "$status"
    cat -v "$room/out"
    printf -- '-- standard error:\n'
    cat -v "$room/err"
    exit 1
}

# In every case: no odd byte on standard error, none at all if no words are expected there, and no temporary file left.
runs() { # NAME STATUS OUTPUT COMMAND [WORDS..]
    local expected=$2 output=$3 command=$4 said words
    case=$1 status=0
    shift 4
    (eval "$command") > "$room/out" 2> "$room/err" || status=$?
    [ "$status" -eq "$expected" ] || wrong "the status is not $expected"
    printf '%s' "$output" | cmp -s - "$room/out" || wrong "standard output is not '$output'"
    [ "$(tr -d '\012\040-\176' < "$room/err" | wc -c)" -eq 0 ] || wrong "an odd byte on standard error"
    [ -z "$(ls -A "$room/tmp")" ] || wrong "a temporary file is left"
    said=$(cat "$room/err")
    [ $# -gt 0 ] || [ -z "$said" ] || wrong "standard error is not empty"
    for words in "$@"; do [[ $said == *"$words"* ]] || wrong "standard error has no '$words'"; done
    cases=$((cases + 1))
}

# A wrong use, or a failed read, write or build: nothing is printed.
fails() { # NAME COMMAND WORDS..
    local name=$1 command=$2
    shift 2
    runs "$name" 2 '' "$command" "$@"
}
