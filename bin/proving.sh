# How a launcher proves its program and builds it, and tells whether that was done of the present
# sources. It sets `launcher`, its name, `top`, where the repository stands, and `main`, the program's
# crate.
out=$top/crates/$main/out
program=$out/$main
# What stands beside the program and says of what it was built.
note=$program.sources
# What a package has at its top, which has programs and no sources: of which commit and kit it is.
package=$top/PACKAGE
[ ! -f "$package" ] || program=$top/programs/$main

say() { printf '%s: %s\n' "$launcher" "$*" >&2; }

refuse() {
    say "$@"
    exit 1
}

# Reads crates.txt: the lines of the crates that the program stands on, with its own, and their
# folders.
read_crates() {
    lines=$(awk -F: -v main="$main" '
        /^[a-z]/ {
            split($1, word, " ")
            names[++n] = word[1]
            line[word[1]] = $0
            below[word[1]] = $2
        }
        function mark(name,    part, i, many) {
            if (name in wanted || !(name in line)) return
            wanted[name] = 1
            many = split(below[name], part, " ")
            for (i = 1; i <= many; i++) mark(part[i])
        }
        END {
            mark(main)
            for (i = 1; i <= n; i++) if (names[i] in wanted) print line[names[i]]
        }
    ' "$top/crates.txt")
    crates=$(echo "$lines" | sed 's|[ :].*||; s|^|crates/|')
}

# Goes over what the program is built of and the program, in a tree, with these words for `find`.
files() (
    cd "$1" && shift && find crates.txt HANDLES $crates "crates/$main/out/$main" \
        \( -name out -o -name must-fail \) -prune -o "$@"
)

# A sum of all that.
sum_of() {
    {
        echo "$lines"
        files "$1" -type f ! -name crates.txt -exec sha256sum {} + | LC_ALL=C sort
    } | sha256sum | cut -d ' ' -f 1
}

# Whether `rt ci` at the top left the program: it makes each crate's out/ anew before it reads the
# crate's files, and builds the program last. So the files are older than each of those folders.
is_of_gate() {
    {
        files "$top" -type f ! -path "*/out/$main" -exec stat -c 'file %.9Z' {} +
        files "$top" -type d -exec stat -c 'folder %.9Z' {} +
        (cd "$top" && stat -c 'out %.9W' $(printf '%s/out ' $crates)) || echo out 0
        stat -c 'program %.9Y' "$program"
    } 2>/dev/null | awk '
        { time = $2 + 0 }
        !($1 in last) || time > last[$1] { last[$1] = time }
        $1 == "out" && (!first || time < first) { first = time }
        END {
            built = last["program"]
            exit !(last["file"] < first && last["out"] < built && last["folder"] < built)
        }'
}

# Whether the program is there and was built of the present sources. The note has their sum and the
# crates. Its own time is before the last look at them, so that what changed since then shows.
is_proved() {
    [ -x "$program" ] || return 1
    [ ! -f "$package" ] || return 0
    sum=
    if [ -f "$note" ]; then
        { read -r sum && read -r crates; } <"$note"
        [ -n "$(files "$top" -cnewer "$note" -print -quit 2>&1)" ] || return 0
    fi
    look=$(($(date +%s) - 1)) noted=$sum
    read_crates
    sum=$(sum_of "$top")
    [ "$sum" = "$noted" ] || is_of_gate || return 1
    write_note 2>/dev/null
    return 0
}

# (in two steps, so that another run finds no half of it)
write_note() {
    printf '%s\n' "$sum" "$(printf '%s ' $crates)" >"$note.$$" && touch -d "@$look" "$note.$$" &&
        mv -f "$note.$$" "$note"
}

need_rt() {
    [ ! -f "$package" ] || refuse "this is a package, which hasn't got that program and can't prove it"
    command -v rt >/dev/null || refuse "there is no rt on the path: the Rattle kit has it"
}

# Makes a folder for this run, where it has none yet. What is started goes into a session of its own
# and keeps its files there, so that a signal, also one to this run's whole group, ends it by `clean`
# alone.
folder= patience=50
begin() {
    [ -z "$folder" ] || return 0
    folder=$(mktemp -d) && chmod 711 "$folder" || exit 1
    job=
    trap clean EXIT
    trap 'trap "" HUP INT TERM; exit 129' HUP
    trap 'trap "" HUP INT TERM; exit 130' INT
    trap 'trap "" HUP INT TERM; exit 143' TERM
}

# Ends what was started, waits until nothing of it is left, and removes the folder.
clean() {
    trap '' HUP INT TERM
    if [ -n "${job:=$!}" ]; then
        # (once: rt gives up its own cleaning at a second one)
        kill -s TERM -- "-$job" 2>/dev/null || kill -s TERM "$job" 2>/dev/null
        for _ in $(seq $patience); do
            pgrep -s "$job" >/dev/null || break
            sleep 0.1
        done
        pkill -KILL -s "$job"
    fi
    rm -rf "$folder" "$program.$$"
}

# Says how far `rt ci` is, a line for each crate, of what that says.
tell() {
    all=$(echo "$lines" | wc -l) count=0 start=$(date +%s)
    while read -r who name what; do
        case "$who $what" in
            'rt: proved' | 'rt: is kept: '*)
                count=$((count + 1)) time=$(($(date +%s) - start))
                say "proved $name, $count of $all, after $((time / 60)) min $((time % 60)) s"
                ;;
        esac
    done
}

# Proves and builds, in a tree of its own that has only what the program is built of.
prove() {
    say "proving; where this machine keeps no proofs yet that takes most of an hour on four cores"
    need_rt
    begin
    read_crates
    tree=$folder/tree look=$(($(date +%s) - 1)) failed=
    mkdir -p "$out" "$tree/.git" && echo "$lines" >"$tree/crates.txt" &&
        (cd "$top" && tar -cf - --exclude=out --exclude=must-fail HANDLES $crates) |
        tar -C "$tree" -xf - && true >"$out/prove.log" || refuse "the sources can't be copied"
    (cd "$tree" && TMPDIR=$folder exec setsid rt ci) >>"$out/prove.log" 2>&1 &
    job=$!
    tail -n +1 -f --pid="$job" "$out/prove.log" | tell &
    wait "$job" || failed=yes
    wait "$!"
    [ -z "$failed" ] && sum=$(sum_of "$tree") &&
        cp "$tree/crates/$main/out/$main" "$program.$$" ||
        refuse "the proof failed; $out/prove.log says where"
    mv -f "$program.$$" "$program" && write_note || exit 1
    is_proved || refuse "the sources changed while they were proved: run this again"
}
