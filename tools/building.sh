# shellcheck shell=bash
# What ./airtable and ./airdesk share: whether a program is older than its sources, and the building of it. They source this file, and have
# set by then: `here`, the project's folder; `name`, the program's and the script's; `root`, the crate whose sources are the program's,
# with those that it depends on; `besides`, other files and folders that are sources, as `find` takes them. They define `say` and `fail`.

program=$here/target/bin/$name
log=$here/target/$name.log
began=$here/target/$name.began.$$ # its time is when this process began to build, and it has the names of the sources then
stamp=$here/target/$name.built    # the same of the last good build

# The folders of the root crate and of those that it depends on, by crates.txt.
crates() {
    awk -F: -v root="$root" '
        function visit(name,    words, k) {
            if (name in seen || !(name in needs)) return
            seen[name] = 1
            print "crates/" name
            for (k = split(needs[name], words, " "); k > 0; k--) visit(words[k])
        }
        { sub(/#.*/, "") }
        NF > 1 { split($1, head, " "); needs[head[1]] = $2 }
        END { visit(root) }' "$here/crates.txt"
}

# Prints what the program is made from: crates.txt, what is beside, and the folders and files of its crates but for the must-fail edits and
# out/, where rt builds. With a test of find, those that pass it. Fails if one is not there.
sources() { # [TEST..]
    (
        cd "$here" || exit
        # shellcheck disable=SC2046
        find crates.txt "${besides[@]}" $(crates) \
            ! -path 'crates/*/*/*' \( -path 'crates/*/must-fail' -o -path 'crates/*/out' \) -prune -o "$@" -print 2> /dev/null
    ) | LC_ALL=C sort
}

# Whether the program is missing, or a source of it came, went or changed since the last good build. A folder is newer if a file in it came
# or went; a crate's own folder is so too if out/ did, and does not count.
is_stale() {
    local newer
    [ -x "$program" ] && [ -e "$stamp" ] || return 0
    sources | cmp -s - "$stamp" || return 0
    newer=$(sources -newer "$stamp" ! \( -path 'crates/*' ! -path 'crates/*/*' \)) || return 0
    [ -n "$newer" ]
}

# Passes on which crate is proved so far.
progress() {
    local line crate=
    while IFS= read -r line; do
        case $line in
        'crate '*:*) crate=${line#crate } && crate=${crate%%:*} ;;
        logic=proved*) say "$crate is proved" ;;
        esac
    done
}

# Takes the stamp away. Until a build has gone well there is none. The program's own time would not do: it is later than a change that was
# made during the build.
begin_build() { # TOOL..
    local tool
    for tool in "$@"; do
        case $tool in
        rt) command -v rt > /dev/null || fail "the program has to be built, and the Rattle toolchain (rt) is not installed" ;;
        *) command -v "$tool" > /dev/null || fail "the program has to be built, and $tool is not installed" ;;
        esac
    done
    { mkdir -p "$here/target/bin" && rm -f "$stamp" "$began" && : > "$began"; } || fail "cannot write to $here/target"
    sources > "$began"
}

# Shows the end of the log of a failed build.
build_failed() { # COMMAND
    awk '!/^(logic|statements|library) /' "$log" | tail -n 40 >&2
    rm -f "$began"
    fail "the build failed: $1; the end of its log stands above, all of it in $log"
}

# Takes what was built, and sets the stamp.
end_build() { # MADE
    { cp "$1" "$program.new.$$" && mv "$program.new.$$" "$program" && mv "$began" "$stamp"; } || fail "cannot write to $here/target"
}
