#!/usr/bin/env bash
# First use of ./airdesk: good and bad words, files, streams, station files and builds, judged as in first_use.sh. The cases of a build run in
# a small project of their own with a fake rt and a fake cargo. The commands of the cases are evaluated, so a name in single quotes is
# meant to stay.
# shellcheck disable=SC2016
set -euo pipefail
cd "$(dirname "$0")/.."
title='first use of the desk'
. tests/judging.sh
airdesk=$PWD/airdesk

# A station file, with escapes, that is refused: nothing is printed, and no page is written.
refuses() { # FILE WORDS..
    printf '%b' "$1" > "$room/bad.station"
    shift
    rm -f "$room/bad.html"
    runs "a bad station file, '$1'" 1 '' 'cd "$room" && "$airdesk" bad.station' "airdesk: bad.station:$1" "${@:2}"
    [ ! -e "$room/bad.html" ] || wrong "a page is written"
}

# ---- words and files

"$airdesk" -o "$room/page.html" examples/break-over-feed-cue.station > /dev/null # builds, if need be
yes='Yes. Whatever the network does, the break has started by the 1st step with `cue & feed` at the latest.
This rests on a promise of the network: `cue & feed` again and again.'
cp examples/break-over-feed-cue.station "$room/own.station"
cp examples/break-over-feed-cue.station "$room/-x"
cp examples/break-over-feed-cue.station "$room/a name"
mkdir "$room/folder"
"$airdesk" --help > "$room/help"

runs 'a station file' 0 "$yes"$'\nThe report: own.html\n' 'cd "$room" && "$airdesk" own.station'
runs 'it is the page of -o, but for its name' 0 '' 'diff <(sed "s/own\.station/X/g" "$room/own.html") <(sed "s/examples\/break-over-feed-cue\.station/X/g" "$room/page.html")'
runs 'a name without .station' 0 "$yes"$'\nThe report: a name.html\n' 'cd "$room" && "$airdesk" "a name" && [ -s "a name.html" ]'
runs 'a page of its own name' 0 "$yes"$'\nThe report: other\n' 'cd "$room" && "$airdesk" own.station -o other && [ -s other ]'
runs 'a plain picture' 0 "$yes"$'\nThe report: plain.html\n' 'cd "$room" && "$airdesk" --plain -o plain.html own.station && [ -s plain.html ]'
runs 'a page called plain' 0 "$yes"$'\nThe report: plain\n' 'cd "$room" && "$airdesk" own.station -o plain && [ -s plain ]'
runs 'a name that is no UTF-8' 0 "$yes"$'\n'$'The report: od\xef\xbf\xbdd.html'$'\n' 'cd "$room" && cp own.station $'\''od\xe9d.station'\'' && "$airdesk" $'\''od\xe9d.station'\'' && [ -s $'\''od\xe9d.html'\'' ]'
runs 'standard input' 0 "$yes"$'\nThe report: in.html\n' 'cd "$room" && "$airdesk" -o in.html - < own.station && [ -s in.html ]'
runs 'a file after --' 0 "$yes"$'\nThe report: ./-x.html\n' 'cd "$room" && "$airdesk" -- ./-x && [ -s ./-x.html ]'
runs 'the four lines' 0 "$(cat examples/break-over-feed-cue.rule)"$'\n' '"$airdesk" --translate examples/break-over-feed-cue.station'
runs 'the four lines of standard input' 0 "$(cat examples/break-over-feed-cue.rule)"$'\n' '"$airdesk" --translate - < examples/break-over-feed-cue.station'
runs 'the four lines are what airtable takes' 0 "$(cat examples/break-over-feed-cue.listing)"$'\n' '"$airdesk" --translate examples/break-over-feed-cue.station | ./airtable'
runs 'the picture' 0 $'<svg\n</svg>\n' '"$airdesk" --picture "$room/own.station" > "$room/svg"; head -c 4 "$room/svg"; echo; tail -n 1 "$room/svg"'
runs 'no report with the four lines or the picture' 0 '' \
    'cd "$room" && rm own.html && "$airdesk" --translate own.station > /dev/null && "$airdesk" --picture own.station > /dev/null && [ ! -e own.html ]'
for words in 'usage: airdesk' 'promise fair' 'stable' 'weak next' '--translate' '--picture' '--plain' '-o PAGE' 'Exit status: 0 answered' README.md; do
    runs "the help has '$words'" 0 '' "grep -qF -- $(printf '%q' "$words") \"\$room/help\""
done
runs 'the station file of the help' 0 "$yes"$'\nThe report: help.html\n' 'cd "$room" && sed -n "/^    # a break/,/^    rule/s/^    //p" help | "$airdesk" -o help.html -'
runs '-h' 0 "$(cat "$room/help")"$'\n' '"$airdesk" -h'

fails 'no file' '"$airdesk"' 'which station file' 'usage: airdesk'
fails 'an unknown option' '"$airdesk" -x' 'unknown option -x' 'usage: airdesk'
fails 'an option with odd bytes' '"$airdesk" $'\''-\e[31m'\''' 'unknown option'
fails 'two files' '"$airdesk" a b' 'more than one file'
fails '-o without a page' '"$airdesk" a -o' '-o needs the name of a page'
fails '-o with no name' '"$airdesk" -o "" "$room/own.station"' '-o needs the name of a page'
fails '-o with the four lines' '"$airdesk" --translate -o a b' '-o is for a report'
fails '--plain with the four lines' '"$airdesk" --translate --plain b' '--plain is for a picture'
fails 'standard input without -o' '"$airdesk" -' 'needs -o PAGE'
fails 'a missing file' '"$airdesk" nofile' 'cannot read nofile: No such file or directory'
fails 'a missing file with an odd name' '"$airdesk" $'\''no\e[31m\nfile'\''' 'cannot read' 'No such file or directory'
fails 'a folder' '"$airdesk" "$room/folder"' 'cannot read' 'Is a directory'
fails 'a page over the station file' 'cd "$room" && "$airdesk" own.station -o ./own.station' 'must not end with .station'
fails 'a page over a station file of another name' 'cd "$room" && "$airdesk" "a name" -o "./a name"' 'would overwrite the station file'
ln "$room/own.station" "$room/hard"
ln -s own.station "$room/soft"
fails 'a page over the station file by a hard link' 'cd "$room" && "$airdesk" own.station -o hard' 'would overwrite the station file'
fails 'a page over the station file by a soft link' 'cd "$room" && "$airdesk" own.station -o soft' 'would overwrite the station file'
fails 'a page over standard input' 'cd "$room" && "$airdesk" - -o hard < own.station' 'would overwrite the station file'
cp "$room/own.station" "$room/other.station"
fails 'a page over another station file' 'cd "$room" && "$airdesk" own.station -o other.station' 'must not end with .station'
cmp -s "$room/own.station" "$room/other.station" || wrong 'the other station file is another now'
fails 'a page that is a folder' 'cd "$room" && "$airdesk" own.station -o folder' 'cannot write folder: Is a directory'
fails 'a page on a full disk' '"$airdesk" "$room/own.station" -o /dev/full' 'cannot write /dev/full: No space left on device'
fails 'standard output closed' '"$airdesk" "$room/own.station" >&-' 'cannot write standard output'
fails 'a full disk' '"$airdesk" "$room/own.station" > /dev/full' 'cannot write standard output: No space left on device'
fails 'a full disk and the help' '"$airdesk" --help > /dev/full' 'cannot write standard output'
fails 'standard input closed' '"$airdesk" -o "$room/x" - <&-' 'cannot read standard input'
fails 'standard input is a folder' '"$airdesk" -o "$room/x" - < "$room"' 'cannot read standard input: Is a directory'
fails 'a file with a failing read' '"$airdesk" -o "$room/x" /proc/self/mem' 'cannot read /proc/self/mem: Input/output error'
cmp -s "$room/own.station" examples/break-over-feed-cue.station || wrong 'the station file is another now'

# ---- station files

wires='input cue\noutput break\n'
refuses "${wires}rule !break U (cue && break)\n" "3:21: the rule: '&' cannot stand here" $'\n    rule !break U (cue && break)\n'"$(printf '%24s' '')^"
refuses "${wires}rule F (cue & break\n" "3:20: the rule ends too early: a ')' is missing" $'\n                       ^'
refuses "${wires}promise fair always cue\nrule F break\n" "3:14: 'always' cannot stand in a promise, which has no temporal operators" $'\n                 ^'
refuses "${wires}promise fair break\nrule F break\n" "3:14: 'break' is an output, and a promise has inputs only"
refuses "${wires}promise fair cue & !cue\nrule F break\n" '3:14: ' 'no input meets'
refuses "${wires}rule F brake\n" "3:8: unknown name 'brake'" 'cue'
refuses "${wires}rules F break\n" '3:1: a line begins with' "did you mean 'rule'?"
refuses "$wires" '2:13: the file has no rule'
refuses "input cue\ninput cue\nrule F cue\n" "2:7: the name 'cue' is already declared, in line 1"
refuses "${wires}rule X X X X X X cue\n" '3:' 'temporal operators'
runs 'a file without end' 1 '' 'ulimit -f 1000; "$airdesk" -o "$room/x" /dev/zero' 'airdesk: /dev/zero:1:1:'

# ---- builds

# A project with the script and sources of long ago, and for PATH a folder with the tools that are needed and one with a fake rt and a fake
# cargo. These note their calls; cargo builds a program that prints the version that the file `version` has.
project="$room/a project"
airdesk=$project/airdesk
mkdir -p "$project"/{tools,include,tests/src,desk/src,desk/tests} "$room/tools" "$room/fake"
cp airdesk "$project"
cp tools/building.sh "$project/tools"
printf 'reader:\ngame: reader\ncapi staticlib: game\nlisting: game\n' > "$project/crates.txt"
for crate in reader game capi listing; do
    mkdir -p "$project/crates/$crate"/{src,must-fail}
    touch "$project/crates/$crate"/{src/lib.rt,must-fail/one.edit}
done
touch "$project"/{include/airtable.h,tests/src/prototypes.rs,desk/Cargo.toml,desk/Cargo.lock,desk/build.rs,desk/src/main.rs,desk/tests/a.rs}
find "$project" -exec touch -t 202001010000 {} +
for tool in awk bash cat chmod cmp cp env find mkdir mktemp mv readlink rm sh sleep sort tail tee timeout touch tr wc; do
    ln -s "$(command -v "$tool")" "$room/tools/$tool"
done
cat > "$room/fake/rt" << 'END'
#!/usr/bin/env bash
echo "${PWD##*/}: rt $*" >> "$fake/calls"
cat > /dev/null
. "$fake/deed"
mkdir -p out
: > out/libcapi.a
printf 'crate reader: modules loaded=1 checked=2\nlogic=proved functions=1\n'
END
cat > "$room/fake/cargo" << 'END'
#!/usr/bin/env bash
echo "${PWD##*/}: cargo $1" >> "$fake/calls"
[ -e "$CAPI_LIB_DIR/libcapi.a" ] || exit 1
mkdir -p "$CARGO_TARGET_DIR/release"
printf '#!/bin/sh\necho %s "$@"\n' "$(cat "$fake/version")" > "$CARGO_TARGET_DIR/release/airdesk"
chmod +x "$CARGO_TARGET_DIR/release/airdesk"
END
chmod +x "$room/fake/rt" "$room/fake/cargo"
ln -s "$(type -P true)" "$room/fake/cc"
export fake=$room/fake
with_tools="PATH=\$fake:\$room/tools; "
without_tools="PATH=\$room/tools; "
asks='"$airdesk" --translate "$room/own.station"'
: > "$fake/deed"

# The first run of a version: built, and said so, by one call of each tool.
is_built() { # NAME VERSION
    printf '%s' "$2" > "$fake/version"
    runs "$1" 0 "$2 lines dot $room/own.station"$'\n' "$with_tools$asks" 'proving the library' 'airdesk: reader is proved'
    [ "$(cat "$fake/calls")" = $'capi: rt lib\ndesk: cargo build' ] || wrong "the calls are $(cat "$fake/calls")"
    rm "$fake/calls"
}

# A run that has nothing to build and does not need the tools.
is_fresh() { # NAME VERSION
    runs "$1" 0 "$2 lines dot $room/own.station"$'\n' "$without_tools$asks"
    runs "$1, with the tools" 0 "$2 lines dot $room/own.station"$'\n' "$with_tools$asks"
    [ ! -e "$fake/calls" ] || wrong "a tool was called"
}

fails 'a fresh clone, a missing file' "$with_tools"'"$airdesk" nofile' 'cannot read nofile: No such file or directory'
fails 'a fresh clone, wrong use' "$with_tools"'"$airdesk" -x' 'unknown option -x'
runs 'a fresh clone, the help' 0 $'yes\n' "$with_tools"'"$airdesk" --help | tail -n 30 | '"$(command -v grep)"' -q "Exit status" && echo yes'
[ ! -e "$fake/calls" ] || wrong "a tool was called"
fails 'a fresh clone, no rt' "$without_tools$asks" 'the Rattle toolchain (rt) is not installed'
is_built 'a fresh clone' 1
is_fresh 'nothing changed' 1
count=1
for source in crates.txt crates/capi/src/lib.rt crates/reader/src/lib.rt include/airtable.h tests/src/prototypes.rs desk/src/main.rs desk/build.rs; do
    sleep 0.05
    touch "$project/$source"
    count=$((count + 1))
    is_built "a change in $source" $count
    is_fresh "after a change in $source" $count
done
for other in crates/listing/src/lib.rt crates/game/must-fail/one.edit desk/tests/a.rs airdesk; do
    sleep 0.05
    touch "$project/$other"
    is_fresh "a change in $other" $count
done
echo 'echo "game: error: this is why"; exit 1' > "$fake/deed"
sleep 0.05
touch "$project/crates/game/src/lib.rt"
for name in 'a failed proof' 'a failed proof again'; do
    fails "$name" "$with_tools$asks" 'proving the library' 'game: error: this is why' "the build failed: 'rt lib' in crates/capi"
    rm "$fake/calls"
done
: > "$fake/deed"
is_built 'a mended proof' 20

# One run builds while a source changes, and another begins then and is killed: the first must not pass for a build of the new source.
cat > "$fake/deed" << 'END'
if [ -n "${second-}" ]; then
    exec sleep 9
fi
sleep 0.05
touch ../game/src/lib.rt
sleep 0.05
second=1 timeout -s KILL 0.5 ../../airdesk --translate "$own" > /dev/null 2>&1 || true
END
sleep 0.05
touch "$project/crates/game/src/lib.rt"
printf 21 > "$fake/version"
runs 'a build beside one that is killed' 0 "21 lines dot $room/own.station"$'\n' "own=\$room/own.station; export own; $with_tools$asks" 'proving the library'
rm "$fake/calls"
: > "$fake/deed"
is_built 'after that, since a source changed' 22
is_fresh 'after that' 22
[ -z "$(find "$project/target" -name '*.new.*')" ] || wrong "a new program is left"
ln -s "$project/airdesk" "$room/link"
runs 'called by a link' 0 "22 lines dot $room/own.station"$'\n' "$without_tools"'cd / && "$room/link" --translate "$room/own.station"'

echo "first use of the desk: $cases cases, as expected"
