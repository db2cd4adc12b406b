# What ./run and ./label share: a tool is built where that is needed, and run in a folder. To be sourced.
# shellcheck shell=bash
here=$(cd "$(dirname "${BASH_SOURCE[0]}")" && pwd)

say() { printf '%s\n' "$*" >&2; }

# The crates of this repository that a tool is made of: itself, and what it depends on.
crates_of() {
    awk -v tool="$1" -F '[: ]+' '
        { for (i = 2; i <= NF; i++) needs[$1] = needs[$1] " " $i; own[$1] }
        function visit(name, i, n, names) {
            if (name in seen || !(name in own)) return
            seen[name]; print name
            n = split(needs[name], names, " ")
            for (i = 1; i <= n; i++) visit(names[i])
        }
        END { visit(tool) }' "$here/crates.txt"
}

# Proves and builds a tool. Where there is something to prove it says so, and tells of each crate as it is proved.
build() {
    local tool=$1 log="$here/target/$1.log" total proved=0 told='' line name=''
    total=$(crates_of "$tool" | wc -l)
    mkdir -p "$here/target"
    tell() {
        [ -z "$told" ] || return 0
        told=yes
        say "$tool is proved and built first: $total crates, about a minute each on two cores."
        say "This is once; after it the answer comes at once."
    }
    while true; do
        if IFS= read -r -t 10 line; then
            case $line in
                'rt: nothing has changed '* | 'rt: running '*) ;;
                'crate '*': modules '*) name=${line#crate } name=${name%%:*} ;;
                'logic=proved'*)
                    proved=$((proved + 1))
                    say "  $proved of $total: $name proved"
                    ;;
                *) tell ;;
            esac
        elif [ $? -gt 128 ]; then
            tell # nothing was said for ten seconds
        else
            break
        fi
    done < <(cd "$here/crates/$tool" && rt run 2>&1 > /dev/null | tee "$log")
    # it ends by running the tool, here on no files
    tail -n 1 "$log" | grep -q '^rt: running ' && return
    cat "$log" >&2
    return 1
}

# The sentence of a rule, as docs/REFUSALS.md has it of a text: the row of the rule, and the rows below it that have no number.
sentence() {
    awk -v rule="$1" -F ' *[|] *' '
        /^\|/ && $2 == rule { said = $3; next }
        said && !/^\| +\|/ { exit }
        said && $3 !~ /^in a list/ { said = said "; or " $3 }
        END { print said }' "$here/docs/REFUSALS.md"
}

# Says on standard error what a `refused` line means.
explain() {
    local word number place file=program.txt page=docs/STUDENTS.md
    read -r word number place < "$1" || return 0
    [ "$word" = refused ] || return 0
    if [ "$number" -gt 8 ]; then page=docs/REFUSALS.md; fi
    if [ "$number" -ge 16 ] && [ "$number" -le 18 ]; then file=sheet.txt; fi
    if [ "$place" -gt 0 ]; then file="line $place of $file"; fi
    say "rule $number, $file: $(sentence "$number") (see $page)"
}

# tool_in TOOL FOLDER FILE...: the tool's output for the folder, whose files count as empty where they cannot be read.
tool_in() {
    local tool=$1 folder=$2 file output
    shift 2
    for file in "$@"; do
        [ -r "$folder/$file" ] || say "note: $folder/$file cannot be read, and counts as empty"
    done
    build "$tool"
    output=$(mktemp)
    # shellcheck disable=SC2064
    trap "rm -f '$output'" EXIT
    (cd "$folder" && "$here/crates/$tool/out/$tool") | tee "$output"
    explain "$output"
}
