#!/usr/bin/env bash
# The desk on the examples: each station file is the rule of the same name, and what is printed stands in desk_answers.txt; the report and the
# picture in docs/ are as they come out, but for where things lie in the picture, the library's hash and the versions.
set -euo pipefail
cd "$(dirname "$0")/.."
room=$(mktemp -d)
trap 'rm -rf "$room"' EXIT

for station in examples/*.station; do
    name=${station%.station}
    ./airdesk --translate "$station" | diff <(sed '3,4s/ //g' "$name.rule") -
    ./airdesk --translate "$station" | ./airtable | diff "$name.listing" -
done
for station in examples/*.station desk/tests/stations/*.station; do
    ./airdesk -o "$room/page.html" "$station" > "$room/said"
    [ "$(tail -n 1 "$room/said")" = "The report: $room/page.html" ]
    { printf '%s\n' "$station" && sed '$d' "$room/said"; } >> "$room/answers"
done
diff tests/desk_answers.txt "$room/answers"
for rule in examples/*.rule; do [ -e "${rule%.rule}.station" ] || { echo "$rule has no station file" && exit 1; }; done
echo "examples/*.station: as expected"

# A page without its picture, the library's hash and the versions.
fixed() { sed -e '/<svg/,/<\/svg>/d' -e '/^<dt>\(Library\|Toolchain\|Built from\)<\/dt>/d' "$1"; }

# What is written in a picture, in some order.
words() { grep -o '>[^<]*<' "$1" | sort; }

shown=break-over-feed-cue
./airdesk -o "$room/page.html" examples/$shown.station > /dev/null
diff <(fixed docs/$shown.html) <(fixed "$room/page.html")
./airdesk --picture examples/$shown.station > "$room/picture.svg"
diff <(words docs/$shown.svg) <(words "$room/picture.svg")
echo "docs/$shown.html, docs/$shown.svg: as they come out"
