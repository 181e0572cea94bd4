#!/usr/bin/env bash
# First use: what ./airtable does with good and bad words, files, streams, inputs and builds. Each case holds the status, standard
# output to the byte, and telling words of standard error to what they should be; the first wrong case ends the test and is shown. The
# cases of a build run in a small project of their own with a fake rt, so that they take no minutes. The commands of the cases are
# evaluated, so a name in single quotes is meant to stay.
# shellcheck disable=SC2016
set -euo pipefail
cd "$(dirname "$0")/.."
title='first use'
. tests/judging.sh
airtable=$PWD/airtable

# An input, with escapes, that is refused.
refuses() { # INPUT NUMBER-AND-PLACE WORDS..
    local input=$1 answer=$2
    shift 2
    printf '%b' "$input" > "$room/input"
    runs "the input '${input:0:80}'" 1 "refused $answer"$'\n' '"$airtable" < "$room/input"' "$@"
}

times() { # COUNT TEXT
    local k
    for ((k = 0; k < $1; k++)); do printf '%s' "$2"; done
}

# ---- words and files

"$airtable" examples/closed-cue.rule > /dev/null # builds, if need be
answer=$(cat examples/closed-cue.listing)$'\n'
cp examples/closed-cue.rule "$room/-x"
mkdir "$room/folder"
"$airtable" --help > "$room/help"

runs 'a file' 0 "$answer" '"$airtable" examples/closed-cue.rule'
runs 'standard input' 0 "$answer" '"$airtable" < examples/closed-cue.rule'
runs '- for standard input' 0 "$answer" '"$airtable" - < examples/closed-cue.rule'
runs 'a file after --' 0 "$answer" 'cd "$room" && "$airtable" -- -x'
runs 'standard input after --' 0 "$answer" '"$airtable" -- < examples/closed-cue.rule'
runs '- after --' 0 "$answer" '"$airtable" -- - < examples/closed-cue.rule'
runs 'a file that is a pipe' 0 "$answer" '"$airtable" <(cat examples/closed-cue.rule)'
runs 'a file, standard input closed' 0 "$answer" '"$airtable" examples/closed-cue.rule <&-'
for words in 'usage: airtable [FILE]' '1 1 ' 'fair ' 'stable' 'some input must meet it' '!pU(a&p)' 'Exit status: 0 answered' '1 refused' '2 wrong use' README.md; do
    runs "the help has '$words'" 0 '' "grep -qF -- $(printf '%q' "$words") \"\$room/help\""
done
runs '-h' 0 "$(cat "$room/help")"$'\n' '"$airtable" -h'
runs '--help after a file' 0 "$(cat "$room/help")"$'\n' '"$airtable" nofile --help'

fails 'an unknown option' '"$airtable" -x' 'unknown option -x' 'usage: airtable [FILE]'
fails 'an unknown long option' '"$airtable" --version' 'unknown option --version' 'usage: airtable [FILE]'
fails 'an option with odd bytes' '"$airtable" $'\''-\e[31m'\''' 'unknown option' 'usage: airtable [FILE]'
fails 'two files' '"$airtable" examples/closed-cue.rule examples/bed.rule' 'more than one file' 'usage: airtable [FILE]'
fails 'two files after --' '"$airtable" -- a --help' 'more than one file' 'usage: airtable [FILE]'
fails 'a missing file' '"$airtable" nofile' 'cannot read nofile: No such file or directory'
fails 'a file without a name' '"$airtable" ""' 'cannot read' 'No such file or directory'
fails 'a missing file with an odd name' '"$airtable" $'\''no\e[31m\nfile'\''' 'cannot read' 'No such file or directory'
fails 'a folder' '"$airtable" "$room/folder"' 'cannot read' 'Is a directory'

# ---- streams

printf '4 4\nfair\n1\n((Gp|a)&(a>c))U((b|Gq)&(c|Gr)&(r|Gs))\n' > "$room/long.rule"
target/bin/airtable < "$room/long.rule" > "$room/long.listing"
[ "$(wc -c < "$room/long.listing")" -gt 4096 ]
printf '1 1\nfair\na\nb\n' > "$room/bad.rule"
mkfifo "$room/pipe"
exec 7<> "$room/pipe"

runs 'a long answer is the program'\''s' 0 "$(cat "$room/long.listing")"$'\n' '"$airtable" "$room/long.rule"'
fails 'standard input closed' '"$airtable" <&-' 'cannot read standard input'
fails 'standard input closed, -' '"$airtable" - <&-' 'cannot read standard input'
fails 'standard input is a folder' '"$airtable" < "$room"' 'cannot read standard input: Is a directory'
fails 'standard input is for writing' '"$airtable" 0> /dev/null' 'cannot read standard input: Bad file descriptor'
fails 'a file with a failing read' '"$airtable" /proc/self/mem' 'cannot read /proc/self/mem: Input/output error'
fails 'a full disk' '"$airtable" examples/closed-cue.rule > /dev/full' 'cannot write standard output: No space left on device'
fails 'a full disk and a refusal' '"$airtable" "$room/bad.rule" > /dev/full' 'cannot write standard output: No space left on device'
fails 'a full disk and the help' '"$airtable" --help > /dev/full' 'cannot write standard output'
fails 'standard output closed' '"$airtable" examples/closed-cue.rule >&-' 'cannot write standard output'
fails 'standard output closed, the help' '"$airtable" --help >&-' 'cannot write standard output'
fails 'a pipe without a reader' \
    '{ sleep 0.2; "$airtable" examples/closed-cue.rule || echo "status $?" >&2; } | true; exit 2' 'cannot write standard output' 'status 2'
dd if=/dev/zero bs=4096 oflag=nonblock >&7 2> /dev/null || true # until it is full; it stays non-blocking
fails 'a full pipe that does not wait' '"$airtable" examples/closed-cue.rule >&7' 'cannot write standard output: Resource temporarily unavailable'
dd bs=4096 count=1 <&7 > /dev/null 2>&1
fails 'a pipe with room for the beginning alone' '"$airtable" "$room/long.rule" >&7' 'cannot write standard output: Resource temporarily unavailable'
exec 7>&-
runs 'standard error closed, a refusal' 1 $'refused 4 0\n' '"$airtable" "$room/bad.rule" 2>&-'
runs 'standard error full, a refusal' 1 $'refused 4 0\n' '"$airtable" "$room/bad.rule" 2> /dev/full'
fails 'standard error closed, a missing file' '"$airtable" nofile 2>&-'
fails 'standard error full, two files' '"$airtable" a b 2> /dev/full'
fails 'all closed' '"$airtable" <&- >&- 2>&-'
fails 'no temporary folder' 'TMPDIR=$room/none "$airtable" examples/closed-cue.rule' 'cannot make a temporary folder'

# ---- refusals

a32=$(times 31 'a&')a
refuses '5 1\nfair\na\nFp\n' '1 0' 'line 1 has 5 for the inputs and 1 for the outputs; each may be 0 to 4'
refuses '0 9\nfair\na\nFp\n' '1 0' 'line 1 has 0 for the inputs and 9 for the outputs; each may be 0 to 4'
refuses "1 1\nfair\na\n$(times 256 a)\n" '2 0' 'line 4, the rule, has 256 bytes; it may have 255'
refuses "1 1\nfair\n$(times 300 '\xff')\nFp\n" '2 0' 'line 3, the condition, has 300 bytes; it may have 255'
refuses "1 1\nfair\n$(times 300 a)\n$(times 400 a)\n" '2 0' 'condition, has 300 bytes' 'rule, has 400 bytes'
refuses '1 1\nfair\na\n!pU(a&&p)\n' '4 6' "line 4, the rule: '&' cannot stand here" $'\n    !pU(a&&p)\n          ^'
refuses '1 1\nfair\na\n!pU(a&p\n' '4 7' 'line 4, the rule: the text ends too early' $'\n    !pU(a&p\n           ^'
refuses '1 1\nfair\na\n\n' '4 0' 'line 4, the rule: the text ends too early' $'\n    \n    ^'
refuses '1 1\nfair\na\nF b\n' '4 2' "line 4, the rule: by line 1 the station has no 'b'" $'\n    F b\n      ^'
refuses '1 1\nfair\na\np&q\n' '4 2' "line 4, the rule: by line 1 the station has no 'q'" $'\n    p&q\n      ^'
refuses '1 1\nfair\na\nFp;\n' '4 2' "line 4, the rule: ';' is no mark" $'\n    Fp;\n      ^'
refuses '1 1\nfair\na\nFp\r\n' '4 2' 'line 4, the rule: a carriage return (0x0d; a line ends with 0x0a alone) is no mark' $'\n    Fp?\n      ^'
refuses '1 1\nfair\na\nF\tp\n' '4 1' 'line 4, the rule: a tab (0x09) is no mark' $'\n    F?p\n     ^'
refuses '1 1\nfair\na\nF\0000p\n' '4 1' 'line 4, the rule: a NUL byte (0x00) is no mark' $'\n    F?p\n     ^'
refuses '1 1\nfair\na\np&\xc3\xa4\n' '4 2' 'line 4, the rule: the odd byte 0xc3 is no mark' $'\n    p&??\n      ^'
refuses '1 1\nfair\na\n\e[31m\n' '4 0' 'line 4, the rule: the odd byte 0x1b is no mark' $'\n    ?[31m\n    ^'
refuses '1 1\nfair\na\n?\x01\n' '4 0' "line 4, the rule: '?' is no mark" $'\n    ??\n    ^'
refuses "1 1\nfair\na\n$(times 60 '!')-$(times 40 p)\n" '4 60' "'-' is no mark" \
    $'\n    ..'"$(times 50 '!')-$(times 19 p).."$'\n'"$(times 56 ' ')^"
refuses "1 1\nfair\na\n$(times 255 '!')\n" '4 255' 'the text ends too early' $'\n    ..'"$(times 50 '!')"$'\n'"$(times 56 ' ')^"
refuses "1 1\nfair\na\n$(times 64 '!')a\n" '5 0' 'line 4, the rule, has 65 names, constants and operators together; it may have 64'
refuses "1 1\nfair\na\n( $a32 & ($a32) & 1)\n" '5 0' 'line 4, the rule, has 129 names'
refuses '1 1\nfair\na\nXNFGa U (pRq)\n' '4 11' "by line 1 the station has no 'q'"
refuses '1 1\nfair\na\nXNFGa U (pRa)\n' '6 0' 'line 4, the rule, has 6 temporal operators (X N F G U R); it may have 5'
refuses '1 1\nfair\n\nFp\n' '7 0' 'line 3, the condition: the text ends too early' $'\n    \n    ^'
refuses '1 1\nfair\na&p\nFp\n' '7 2' "line 3, the condition: 'p' cannot stand in a condition" $'\n    a&p\n      ^'
refuses '1 1\nfair\naUa\nFp\n' '7 1' "line 3, the condition: 'U' cannot stand in a condition" $'\n    aUa\n     ^'
refuses '1 1\nstable\na|b\nFp\n' '7 2' "line 3, the condition: by line 1 the station has no 'b'" $'\n    a|b\n      ^'
refuses '1 1\nstable\n a)\nFp\n' '7 2' "line 3, the condition: ')' cannot stand here" $'\n     a)\n      ^'
refuses '1 1\nstable\na\r\nFp\n' '7 1' 'line 3, the condition: a carriage return (0x0d;' $'\n    a?\n     ^'
refuses "1 1\nfair\n$a32&($a32)\nFp\n" '8 0' 'line 3, the condition, has 127 names, constants and operators together; it may have 64'
refuses '4 4\nfair\n1\nF((a|Gp)&(b|Gq)&(c|Gr)&(d|Gs))\n' '9 0' 'line 4, the rule: its automaton has more than 128 states'
refuses '1 1\nfair\n0\nFp\n' '15 0' 'line 3, the condition: no input meets it, so the outside could not keep its promise'
refuses '1 1\nstable\na & !a\nFp\n' '15 0' 'line 3, the condition: no input meets it'
refuses '0 0\nfair\n!1\n1\n' '15 0' 'line 3, the condition: no input meets it'
refuses '4 4\nfair\na&!a\nF((a|Gp)&(b|Gq)&(c|Gr)&(d|Gs))\n' '15 0' 'line 3, the condition: no input meets it'
refuses '1 1\nfair\n0\nFp&\n' '4 3' 'line 4, the rule: the text ends too early'

refuses '' '14 0' 'the input is empty'
refuses "1 1\nfair\na\nFp$(times 2034 ' ')\n" '2 0' 'line 4, the rule, has 2036 bytes' # 2,048 in all
refuses "1 1\nfair\na\nFp$(times 2035 ' ')\n" '14 0' 'the input has more than 2,048 bytes'
refuses "$(times 2048 '\n')" '14 0' 'the number of lines is 2048 and must be 4'
refuses "$(times 5000 '\0000')" '14 0' 'the input has more than 2,048 bytes'
refuses '1 1\r\nfair\r\na\r\nFp\r\n' '14 0' 'line 1 has a carriage return (0x0d; a line ends with 0x0a alone) at byte 4' 'line 2 has a carriage return'
refuses '1 1\nfair\na\nFp' '14 0' 'line 4, the last, has no line end (0x0a)'
refuses '1 1\nfair\na\n' '14 0' 'the number of lines is 3 and must be 4'
refuses '1 1\nfair' '14 0' 'the number of lines is 2 and must be 4' 'line 2, the last, has no line end (0x0a)'
refuses '1 1\nfair\na\nFp\n\n' '14 0' 'the number of lines is 5 and must be 4: nothing may follow the rule, not even an empty line'
refuses '1 1\nfair\na\nFp\n ' '14 0' 'the number of lines is 5 and must be 4'
refuses '1 1\nFair\na\nFp\n' '14 0' "line 2 must be in small letters, 'fair', and is 'Fair'"
refuses '1 1\nSTABLE\na\nFp\n' '14 0' "line 2 must be in small letters, 'stable', and is 'STABLE'"
refuses '1 1\nfair \na\nFp\n' '14 0' "line 2 must be 'fair' or 'stable', with nothing before or after it, and is 'fair '"
refuses '1 1\nfair,stable\na\nFp\n' '14 0' "line 2 must be 'fair' or 'stable', with nothing before or after it, and is 'fair,stable'"
refuses '1 1\n\na\nFp\n' '14 0' "line 2 must be 'fair' or 'stable', with nothing before or after it, and is ''"
refuses "1 1\n$(times 100 f)\na\nFp\n" '14 0' "and is '$(times 40 f)..'"
refuses '1 1\nfa\0000ir\na\nFp\n' '14 0' 'line 2 has a NUL byte (0x00) at byte 3'
refuses '11\nfair\na\nFp\n' '14 0' "line 1 must be a digit, a blank and a digit, as '1 1', and is '11'"
refuses '1 1 \nfair\na\nFp\n' '14 0' "line 1 must be a digit, a blank and a digit, as '1 1', and is '1 1 '"
refuses '1\t1\nfair\na\nFp\n' '14 0' 'line 1 has a tab (0x09) at byte 2'
refuses '\xef\xbb\xbf1 1\nfair\na\nFp\n' '14 0' 'line 1 has the odd byte 0xef at byte 1'
refuses '\n\n\n\n' '14 0' "line 1 must be a digit, a blank and a digit, as '1 1', and is ''" "line 2 must be 'fair' or 'stable'"
runs 'a file without end' 1 $'refused 14 0\n' 'ulimit -f 100; "$airtable" /dev/zero' 'the input has more than 2,048 bytes'

# ---- builds

# A project with the script, sources of long ago, and for PATH a folder with the tools that are needed and one with a fake rt. That one
# notes its call and where, reads all that it is given to read, does what the file `deed` says, and builds a program that prints the version
# that the file `version` has and how many bytes it read. A program that is the same already it leaves alone.
project="$room/a project"
airtable=$project/airtable
mkdir -p "$project/crates/airtable" "$project/tools" "$room/tools" "$room/fake"
cp airtable "$project"
cp tools/building.sh "$project/tools"
printf '# a: capi\nreader:\nautomaton: reader # capi\ngame: reader automaton\ncapi staticlib: game\n\nlisting: game\n\t airtable status=0 : std listing\n' > "$project/crates.txt"
for crate in reader automaton game listing airtable capi; do
    mkdir -p "$project/crates/$crate"/{src,specs,proofs/main,must-fail}
    touch "$project/crates/$crate"/{src/lib.rt,specs/Spec.antt,proofs/main/Proof.antt,must-fail/one.edit}
done
touch "$project/crates/airtable/stdin" "$project/crates/airtable/stdout"
find "$project" -exec touch -t 202001010000 {} +
for tool in awk bash cat chmod cmp cp dd env find mkdir mktemp mv od readlink rm sh sleep sort tail tee touch tr wc; do
    ln -s "$(command -v "$tool")" "$room/tools/$tool"
done
cat > "$room/fake/rt" << 'END'
#!/usr/bin/env bash
echo "${PWD##*/}: $*" >> "$fake/calls"
cat > /dev/null
cd ../..
. "$fake/deed"
mkdir -p crates/{reader,airtable}/out
new=crates/airtable/out/new
printf '#!/bin/sh\nprintf "can 1 1\\n0 * S %s %%s\\n" $(wc -c)\n' "$(cat "$fake/version")" > $new
chmod +x $new
cmp -s $new crates/airtable/out/airtable || cp $new crates/airtable/out/airtable
printf 'crate reader: modules loaded=1 checked=2\nlogic=proved functions=1\n' >&2
END
chmod +x "$room/fake/rt"
chmod -R a+rX "$project" "$room/fake" "$room/tools"
export fake=$room/fake
five='printf 12345 | "$airtable"'
with_rt="PATH=\$fake:\$room/tools; "
without_rt="PATH=\$room/tools; "
: > "$fake/deed"

version() { printf '%s' "$1" > "$fake/version"; }

# A change that comes later than what was done before, whatever the tick of the clock.
later() { # FILE
    sleep 0.05
    touch "$1"
}

# How often the cases since the last such line have built.
builds() { # COUNT
    local calls=0
    [ ! -e "$fake/calls" ] || calls=$(wc -l < "$fake/calls")
    [ "$calls" -eq "$1" ] || wrong "rt was called $calls times, not $1"
    [ "$calls" -eq 0 ] || [ "$(sort -u "$fake/calls")" = 'airtable: run' ] || wrong "rt was not called with 'run' in crates/airtable"
    rm -f "$fake/calls"
}

# The first run of a version: built, and said so.
is_built() { # NAME VERSION
    version "$2"
    runs "$1" 0 $'can 1 1\n0 * S '"$2 5"$'\n' "$with_rt$five" 'proving and building' 'airtable: reader is proved'
    builds 1
}

# A run that has nothing to build and does not need rt.
is_fresh() { # NAME VERSION
    runs "$1, no rt" 0 $'can 1 1\n0 * S '"$2 5"$'\n' "$without_rt$five"
    runs "$1" 0 $'can 1 1\n0 * S '"$2 5"$'\n' "$with_rt$five"
    builds 0
}

as_nobody=
[ "$(id -u)" -ne 0 ] || as_nobody="$(command -v setpriv) --reuid=65534 --regid=65534 --clear-groups "
cp examples/closed-cue.rule "$room/secret"
chmod 000 "$room/secret"

fails 'a fresh clone, a missing file' "$with_rt"'"$airtable" nofile' 'cannot read nofile: No such file or directory'
fails 'a fresh clone, a folder' "$with_rt"'"$airtable" "$room"' 'Is a directory'
fails 'a fresh clone, an unreadable file' "$with_rt$as_nobody"'"$airtable" "$room/secret"' 'cannot read' 'Permission denied'
fails 'a fresh clone, standard input closed' "$with_rt"'"$airtable" <&-' 'cannot read standard input'
fails 'a fresh clone, standard input a folder' "$with_rt"'"$airtable" < "$room"' 'cannot read standard input'
fails 'a fresh clone, standard output closed' "$with_rt"'"$airtable" examples/closed-cue.rule >&-' 'cannot write standard output'
fails 'a fresh clone, wrong use' "$with_rt"'"$airtable" -x' 'unknown option -x'
runs 'a fresh clone, the help' 0 $'yes\n' "$with_rt"'"$airtable" --help | tail -n 30 | '"$(command -v grep)"' -q "Exit status" && echo yes'
builds 0
fails 'a fresh clone, no rt' "$without_rt$five" 'the Rattle toolchain (rt) is not installed'
is_built 'a fresh clone' 1
is_fresh 'nothing changed' 1

count=1
for source in crates.txt crates/airtable/stdin crates/airtable/stdout crates/airtable/src/lib.rt crates/listing/specs/Spec.antt \
    crates/game/proofs/main/Proof.antt crates/automaton/src/lib.rt crates/reader/specs/Spec.antt; do
    later "$project/$source"
    count=$((count + 1))
    is_built "a change in $source" $count
    is_fresh "after a change in $source" $count
    later "$project/$source"
    is_built "a change in $source that makes none in the program" $count
    is_fresh "after a change in $source that makes none in the program" $count
done
later "$project/crates.txt"
runs 'a build leaves standard input alone' 0 $'can 1 1\n0 * S '"$count 5"$'\nmine\n' \
    "$with_rt"'printf 12345 > "$room/five"; echo mine | { "$airtable" "$room/five"; cat; }' 'proving and building'
builds 1
for other in crates/capi/src/lib.rt crates/game/must-fail/one.edit airtable; do
    later "$project/$other"
    is_fresh "a change in $other" $count
done
later "$project/crates/game/src/new.rt"
is_built 'a new source' 20
sleep 0.05
rm "$project/crates/game/src/new.rt"
is_built 'a source that is gone' 21
rm -r "$project/crates/listing"
is_built 'a crate that is gone' 22
mkdir "$project/crates/listing"
is_built 'a crate that is new' 23
is_fresh 'a crate that is no longer new' 23
touch -t 202001010000 "$project/target/bin/airtable"
is_fresh 'a program with an old time' 23
rm "$project/target/bin/airtable"
is_built 'a program that is gone' 24
sleep 0.05
touch "$project/crates/airtable/args"
is_built 'a new file beside src' 25
sleep 0.05
rm "$project/crates/airtable/args"
is_built 'a file beside src that is gone' 26
is_fresh 'after that' 26

# What rt builds is no source, and `rt ci` takes it away for a time.
for deed in 'touch reader/out/new' 'mkdir game/out' 'mv reader/out ../aside' 'rm airtable/out/airtable' 'rm -r airtable/out' 'mv ../aside reader/out'; do
    sleep 0.05
    (cd "$project/crates" && eval "$deed")
    is_fresh "$deed" 26
done

echo 'sleep 0.05; touch crates/game/src/lib.rt' > "$fake/deed"
later "$project/crates.txt"
is_built 'a change during a build' 27
: > "$fake/deed"
is_built 'after a change during a build' 28
is_fresh 'after that' 28

echo 'echo "game: error: this is why" >&2; echo "rt: FAILED: game" >&2; exit 1' > "$fake/deed"
cp -p "$project/crates/game/src/lib.rt" "$room/good.rt"
later "$project/crates/game/src/lib.rt"
for name in 'a failed build' 'a failed build again'; do
    fails "$name" "$with_rt$five" 'proving and building' 'game: error: this is why' 'rt: FAILED: game' 'the build failed'
    builds 1
done
cp -p "$room/good.rt" "$project/crates/game/src/lib.rt"
fails 'a failed build, its source as of old' "$with_rt$five" 'this is why' 'the build failed'
builds 1
fails 'a failed build, then no rt' "$without_rt$five" 'the Rattle toolchain (rt) is not installed'
echo 'kill -KILL $$' > "$fake/deed"
fails 'a build that is killed' "$with_rt$five" 'the build failed'
builds 1
echo 'rm -f crates/airtable/out/airtable; exit 0' > "$fake/deed"
fails 'a build without a program' "$with_rt$five" 'the build left no' 'crates/airtable/out/airtable'
builds 1
echo 'echo refused 14 0' > "$fake/deed"
fails 'a build of a program that prints something else' "$with_rt$five" 'did not print crates/airtable/stdout'
builds 1
fails 'such a program, then no rt' "$without_rt$five" 'the Rattle toolchain (rt) is not installed'
: > "$fake/deed"
is_built 'a mended build' 29

mkdir "$room/links"
ln -s "$project/airtable" "$room/links/absolute"
ln -s "../a project/airtable" "$room/links/relative"
ln -s relative "$room/links/twice"
ln -s "$project" "$room/links/folder"
for link in '"$room/links/absolute"' 'cd "$room/links" && ./relative' 'cd / && "$room/links/twice"' '"$room/links/folder/airtable"' \
    'PATH=$room/links:$PATH; twice' 'cd "$room/links" && bash twice' 'CDPATH=/tmp; cd "$room" && "a project/airtable"'; do
    runs "called by $link" 0 $'can 1 1\n0 * S 29 5\n' "$without_rt$link"' < "$room/five"'
done

# ---- programs that do not do their part

program() { # TEXT: of a shell script in the program's place
    printf '#!/bin/sh\n%s\n' "$1" > "$project/target/bin/airtable"
}

program 'wc -c > "$fake/size"; echo refused 14 0'
runs 'no more is read than need be' 1 $'refused 14 0\n' "$without_rt"'ulimit -f 100; cat /dev/zero | "$airtable"' 'the input has more than 2,048 bytes'
runs 'and no less' 0 $'2049\n' 'cat "$fake/size"'
program 'echo refused 16 3'
runs 'a refusal that is not known' 1 $'refused 16 3\n' "$without_rt$five" 'refusal 16, place 3'
program 'echo "airtable: cannot read standard input" >&2'
fails 'the program cannot read' "$without_rt$five" 'airtable: cannot read standard input' 'no whole answer'
program 'printf "can 2 1\n0 - S 0\n"; echo "airtable: cannot write standard output" >&2'
fails 'the program cannot write all' "$without_rt$five" 'airtable: cannot write standard output' 'no whole answer'
for text in '' 'can 2 1\n0 - S 0\n' 'can 2 1\n0 - S 0\n1 * S' 'can 1 1\n0 * S 0\n1 * S 0\n' 'can 1 1\n0 * S 0\n1' \
    'can' 'can\n' 'can x 1\n' 'can 1\n0 * S 0\n' 'can 1 \n0 * S 0\n' 'refused 4 6' 'refused 4\n' 'refused 4 6\n\n' 'Can 1 1\n0 * S 0\n' '\n'; do
    program "printf '$text'"
    fails "the program prints '$text'" "$without_rt$five" 'the program gave no whole answer'
done
program 'exit 3'
fails 'the program fails' "$without_rt$five" 'the program failed, with status 3'
program 'printf "can 1 1\n0 * S 0\n"; kill -SEGV $$'
fails 'the program dies' "$without_rt$five" 'the program failed, with status 139'

echo "first use: $cases cases, as expected"
