#!/usr/bin/env bash
# Runs the program; ./geo help says all that it does.
#
#   ./geo run SCRIPT          a file behind a command is read in place of standard input, which is what the program itself reads;
#   ./geo run SCRIPT ..       several behind run are several runs, each answer under a line `== SCRIPT`,
#   ./geo resume STATE ..     and several behind resume are read one after the other, as a state and the events that go on from it
#   ./geo steps from STATE .. and so behind steps from and lost CLUSTER from; ./geo show STATE is that of a state alone
#   ./geo drill FILE          words that are no command of the program are of tools/geo_tools
#
# What runs is the first of these that no source is newer than: the proved program that tools/build made (.built/geo), the unproved one that a
# first call made and kept (.built/unproved, tools/compile). GEO_PROGRAM=FILE names another one. Where none can be kept, the
# toolchain's `rt try` compiles the source at each call.
#
# The status is the program's own (docs/REPORT.md), of several runs the first one that is not 0, or
#   66  a file that is named can't be read
#   69  there is no build of this source, and no toolchain (or no python3, which the toolchain and the tools need)
#   70  the toolchain failed; what it said is on standard error
# Of a call that is refused, standard error has the program's line again where standard output is no terminal, and what it means.
set -u
# (by expansion: each process that is started is a millisecond of every call)
case $0 in
/*) top=${0%/*} ;;
*/*) top=$PWD/${0%/*} ;;
*) top=$PWD ;;
esac
# a byte more than the program reads, so that it refuses what is longer (docs/REPORT.md, too large 1)
most=67108865
# the words of tools/geo_tools, and those that this wrapper answers itself
tool_words=" drill story page why check help completion "
# those that run the program, so that it is made before, and what is unproved is said
playing_words=" drill story page check "

say() { echo "geo: $*" >&2; }
tool() { exec python3 "$top/tools/geo_tools" "$@"; }
need_python() {
    command -v python3 >/dev/null || {
        say "python3 is not in the path, and this needs it"
        exit 69
    }
}

is_newest() { [ -x "$1" ] && [ -z "$(find "$top"/crates/*/src "$top/crates.txt" -newer "$1" -print -quit)" ]; }

# What runs, and what is to be said of it: $program and $kind.
find_program() {
    if [ -n "${GEO_PROGRAM:-}" ]; then
        program=$GEO_PROGRAM kind=given
    elif is_newest "$top/.built/geo"; then
        program=$top/.built/geo kind=proved
    elif is_newest "$top/.built/unproved"; then
        program=$top/.built/unproved kind=unproved
    else
        program='' kind=none
    fi
}

# What runs, compiled and kept where there is none yet; says where it is unproved.
prepare_program() {
    find_program
    if [ $kind = none ]; then
        if ! command -v rt >/dev/null; then
            say "there is no build of this source, and no toolchain: rt, the command of the Rattle kit, is not in the path"
            exit 69
        fi
        need_python
        "$top/tools/compile"
        case $? in
        0) find_program ;;
        75) say "so each call compiles the source; tools/build makes a proved program, and later calls are then quick" ;;
        69) exit 69 ;;
        *) exit 70 ;;
        esac
    fi
    if [ $kind = unproved ]; then say "unproved build of this source; tools/build makes a proved one"; fi
}

version() {
    find_program
    local source toolchain
    source=$(git -C "$top" rev-parse --short HEAD 2>/dev/null) || source="not in git"
    [ -z "$(git -C "$top" status --porcelain 2>/dev/null | head -n 1)" ] || source="$source, with changes"
    toolchain=$(rt version 2>/dev/null) || toolchain="none in the path"
    echo "geo, scripts of version 1, state files of versions 1 and 2"
    echo "source: $source"
    case $kind in
    given) echo "program: $program, as GEO_PROGRAM names it; nothing is known of its proof" ;;
    proved) echo "program: .built/geo, proved, of this source$(made_by geo)" ;;
    unproved) echo "program: .built/unproved, an unproved build of this source$(made_by unproved); tools/build makes a proved one" ;;
    none) echo "program: no build of this source; the first call makes an unproved one, tools/build a proved one" ;;
    esac
    echo "toolchain: $toolchain"
}
made_by() { if [ -s "$top/.built/$1.toolchain" ]; then echo ", by $(cat "$top/.built/$1.toolchain")"; fi; }

# -h and --help anywhere, --version, --json, and the words of the tools; what is left are the program's words
words=()
json=
for word in "$@"; do
    case $word in
    -h | --help)
        need_python
        if [[ $tool_words == *" $1 "* ]] && [ "$1" != help ]; then tool "$1" --help; fi
        tool help ${1+"$1"}
        ;;
    --version)
        version
        exit 0
        ;;
    --json) json=yes ;;
    *) words+=("$word") ;;
    esac
done
if [[ $tool_words == *" ${words[0]:-.} "* ]]; then
    need_python
    if [[ $playing_words == *" ${words[0]} "* ]] && { [ $# -gt 1 ] || [ "${words[0]}" = check ]; }; then
        prepare_program
        if [ -n "$program" ]; then export GEO_PROGRAM=$program; fi
    fi
    tool "$@"
fi

# a state alone: its steps, of which there are none
if [ "${words[0]:-}" = show ]; then words=(steps from "${words[@]:1}"); fi

# which words stand before the files; `whole` behind audit, `numbers` and `from` behind a cluster are words of the command, and ./whole is a file
own=0
case "${words[0]:-}:${#words[@]}" in
audit:2) if [ "${words[1]}" != whole ]; then own=1; fi ;;
audit:3) if [ "${words[1]}" = whole ]; then own=2; fi ;;
run:* | resume:* | save:2 | trace:2) own=1 ;;
steps:1) ;;
steps:*)
    case ${words[1]} in
    from) own=2 ;;
    big) ;;
    *) if [ ${#words[@]} = 2 ]; then own=1; fi ;;
    esac
    ;;
lost:[12]) ;;
lost:*)
    case ${words[2]} in
    from) own=3 ;;
    numbers) if [ ${#words[@]} -le 4 ]; then own=3; fi ;;
    *) if [ ${#words[@]} = 3 ]; then own=2; fi ;;
    esac
    ;;
compact:3 | tiered:3) own=2 ;;
live:4) own=3 ;;
save:* | trace:* | audit:* | compact:* | tiered:* | live:* | big:*) ;;
# a command that came later: a file behind it is read as well
*:2) if [ "${words[1]}" = - ] || [ -f "${words[1]}" ]; then own=1; fi ;;
esac
files=()
if [ $own != 0 ]; then
    files=("${words[@]:own}")
    words=("${words[@]:0:own}")
fi
# the horizon of a whole topic: the program takes the topic's length where that is less
if [ "${words[*]:0:2}" = "compact end" ]; then words[1]=2000000; fi
is_several() { [ "${words[0]:-}" = run ] && [ ${#files[@]} -gt 1 ]; }
if [ -n "$json" ]; then
    need_python
    if is_several; then
        say "--json is of one run"
        exit 2
    fi
fi
for file in ${files+"${files[@]}"}; do
    if [ "$file" != - ] && { [ -d "$file" ] || ! { true <"$file"; } 2>/dev/null; }; then
        say "$file can't be read"
        exit 66
    fi
done

# A folder for what is kept while it runs, made where it is needed.
room=
make_room() {
    if [ -z "$room" ]; then
        room=$(mktemp -d) || exit 70
        trap 'rm -rf "$room"' EXIT
    fi
}
# The first status of several that is not 0.
status=0
note() { if [ "$status" = 0 ]; then status=$1; fi; }

# The program has a command of this name: its usage line says so.
is_known() { [ -n "$program" ] && "$program" </dev/null 2>/dev/null | tr -c 'a-z\n' '\n' | grep -qx -- "$1"; }

# What the program reads, as one file in $input: a regular file that is named stands for itself, all else is copied once, since a refusal
# shows a line of it.
read_input() {
    input=/dev/null
    case "${words[*]-}" in
    run | save | resume | trace | audit | 'audit whole' | observe | steps | steps\ from | compact\ * | tiered\ * | live\ *) ;;
    lost\ *\ numbers | lost\ *\ from) ;;
    '' | big* | steps\ * | lost | lost\ *\ *) return ;;
    lost\ *) ;;
    *) if [ ${#files[@]} = 0 ] && ! is_known "${words[0]}"; then return; fi ;;
    esac
    if [ ${#files[@]} = 1 ] && [ -f "${files[0]}" ]; then
        input=${files[0]}
        return
    fi
    make_room
    input=$room/input
    if ! cat -- ${files+"${files[@]}"} 2>"$room/fault" | head -c $most >"$input" || [ -s "$room/fault" ]; then
        # what the program says of a directory and of a standard input that is closed
        echo "read fault" 2>/dev/null || exit 5
        exit 4
    fi
}

# Behind an answer that is none of the wanted ones: its line again, and what it means. $1 the status, $2 the file that has the answer, and $3
# the name of the input.
explain() {
    if [ ! -t 1 ]; then cat "$2" >&2; fi
    if command -v python3 >/dev/null; then
        GEO_PROGRAM=$program python3 "$top/tools/geo_tools" refused "$1" "$2" "$input" "$3" ${words+"${words[@]}"} >&2
    fi
}
# Does one run and leaves its status in $ended. $1 is the input's name.
one_run() {
    "$program" ${words+"${words[@]}"} <"$input"
    ended=$?
    case $ended in
    2 | 3 | 4 | 6 | 8 | 9 | 10)
        # a refusal is one line, and comes again
        make_room
        "$program" ${words+"${words[@]}"} <"$input" >"$room/answer"
        explain $ended "$room/answer" "$1"
        ;;
    esac
}
# How the input is called, in $named.
name_input() {
    case ${#files[@]} in
    0) named="standard input" ;;
    1) if [ "${files[0]}" = - ]; then named="standard input"; else named=${files[0]}; fi ;;
    *) named="${files[*]}" ;;
    esac
}

prepare_program
name_input

# One document of an answer: $1 its status, $2 the file that has it.
as_json() {
    GEO_PROGRAM=$program python3 "$top/tools/geo_tools" json "$1" "$2" "$input" "$named" ${words+"${words[@]}"}
    case $? in
    0) exit "$1" ;;
    2) exit 2 ;;
    *) exit 5 ;;
    esac
}
# What is to be said of a run on threads: which clients have lines left.
left_over() {
    sed -n 's/^client \([^ ]*\) at [^ ]* lines \([0-9]*\)\/\([0-9]*\) .*/\1 \2 \3/p' "$1" | while read -r client did all; do
        if [ "$did" != "$all" ]; then
            say "$client did $did of its $all lines in these turns: more turns, or a line that waits (docs/REPORT.md, A run on threads)"
        fi
    done
}

if [ -n "$program" ]; then
    if is_several; then
        for input in "${files[@]}"; do
            echo "== $input" 2>/dev/null || exit 5
            one_run "$input"
            note $ended
        done
        exit "$status"
    fi
    read_input
    if [ -n "$json" ] || [ "${words[0]:-}" = live ]; then
        make_room
        "$program" ${words+"${words[@]}"} <"$input" >"$room/answer"
        ended=$?
        if [ -n "$json" ]; then as_json $ended "$room/answer"; fi
        cat "$room/answer" 2>/dev/null || exit 5
        if [ $ended = 0 ]; then left_over "$room/answer"; else explain $ended "$room/answer" "$named"; fi
        exit $ended
    fi
    one_run "$named"
    exit "$ended"
fi

make_room
# Compiles and runs the program; $1 has what it reads, and the toolchain's other words follow. What it writes is kept, since a
# sink that fails is the program's own matter: status 5, and not the toolchain's.
try() {
    local input=$1
    shift
    (cd "$top/crates/geo_cli" && exec rt try --seconds 600 "$@") <"$input" >"$room/answer" 2>"$room/said"
}
failed() {
    cat "$room/said" >&2
    say "the toolchain gave no answer of the program; what it said is above"
    exit 70
}

if is_several; then
    mkdir "$room/cases"
    printf '%s\n' "${files[@]}" >"$room/names"
    number=0
    for file in "${files[@]}"; do
        number=$((number + 1))
        cat <"$file" >"$(printf '%s/cases/%06d' "$room" $number)"
    done
    try /dev/null --cases "$room/cases" -- "${words[@]}"
    # a line for each case says whether the program ended by itself
    if [ "$(grep -c '^case=[0-9]* run=ended ' "$room/said")" != $number ]; then
        failed
    fi
    for ended in $(sed -n 's/^case=[0-9]* run=ended status=\([0-9]*\) .*/\1/p' "$room/said"); do
        note "$ended"
    done
    # the toolchain's headings are the cases' numbers, in their order
    awk 'NR == FNR { name[NR] = $0; next } $0 == sprintf("== %06d", at + 1) { at++; $0 = "== " name[at] } { print }' \
        "$room/names" "$room/answer" 2>/dev/null || exit 5
    exit "$status"
fi

read_input
try "$input" -- ${words+"${words[@]}"} || status=$?
# the toolchain's last line says whether the program ended by itself
tail -n 1 "$room/said" | grep -q '^run=ended ' || failed
if [ -n "$json" ]; then as_json "$status" "$room/answer"; fi
cat "$room/answer" 2>/dev/null || exit 5
case $status in
0) if [ "${words[0]:-}" = live ]; then left_over "$room/answer"; fi ;;
5) ;;
*) explain "$status" "$room/answer" "$named" ;;
esac
exit "$status"
