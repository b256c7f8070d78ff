#!/usr/bin/env bash
# Runs the commands of README.md as they stand there, in a fresh clone of this repository's last commit, and compares what they write
# where README shows it.
#
#   tests/readme.sh           every command: `rt all check` and `.ci/run` prove every crate, and the first reply of ./findspot has to show how
#                             far its build is
#   tests/readme.sh --quick   all but these two
#   tests/readme.sh --list    says what it would run, and runs nothing
#
# A block of README is four spaces deep, or fenced. One whose first line begins with one of the words below is commands, one a line. A block
# behind it, with nothing but blank lines between, is the end of what they write. Of any other block a line says that it is not run.
set -u
cd "$(dirname "$0")/.." || exit 2
root=$PWD
# The gate of a clone does not stand beside the original's source, which it takes from there.
if [ -z "${POLYCLIP_SRC:-}" ] && [ -d ../shared/docs/src/src ]; then
    POLYCLIP_SRC=$(cd ../shared/docs/src/src && pwd -P)
    export POLYCLIP_SRC
fi
first_words=' rt .ci/run ./findspot tools/build cc cargo python3 '
long_ones=' rt all check;.ci/run;'
mode=whole
case ${1:-} in
'') ;;
--quick) mode=quick ;;
--list) mode=list ;;
*)
    echo "usage: tests/readme.sh [--quick | --list]" >&2
    exit 2
    ;;
esac

work=$(mktemp -d) || exit 2
trap 'rm -rf "$work"' EXIT
ran=0
compared=0
failed=0
left_out=0
# whether the program is still to be built
builds=1

# The clone in which the commands are run.
make_clone() {
    git clone --quiet "$root" "$work/clone"
}

fail() {
    failed=$((failed + 1))
    echo "readme: $1: FAILED"
}

# A command without the comment behind it.
bare() {
    printf '%s' "$1" | sed 's/[[:space:]]\{1,\}#.*$//; s/[[:space:]]*$//'
}

# run COMMAND LINE: runs it; what it writes to standard output is kept for the block behind it
run() {
    local command
    command=$(bare "$1")
    if [ "$mode" = list ]; then
        echo "readme: line $2: $command"
        return
    fi
    if [ "$mode" = quick ] && [[ $long_ones == *[\ \;]"$command;"* ]]; then
        left_out=$((left_out + 1))
        echo "readme: line $2: $command: left out by --quick"
        return
    fi
    ran=$((ran + 1))
    echo "readme: line $2: $command"
    (cd "$work/clone" && bash -c "$1") >>"$work/written" 2>"$work/errors" </dev/null || {
        tail -n 20 "$work/errors"
        fail "line $2: $command"
    }
    if [ "$mode" = whole ] && [ "$builds" = 1 ] && [[ $command == ./findspot* ]]; then
        builds=0
        check_progress "$2"
    fi
}

# check_progress LINE: the first reply of a clone came after lines on standard error that count the crates proved, from 0 to all of them
check_progress() {
    local all shown
    all=$(sed -n 's/^findspot: 0 of \([0-9]*\) crates proved$/\1/p' "$work/errors")
    shown=$(grep -c "^findspot: [0-9]* of ${all:-none} crates proved$" "$work/errors")
    echo "readme: line $1: its build showed $shown counts of ${all:-no} crates proved"
    if [ "$shown" -lt 2 ] || [ "$shown" -ne $((all + 1)) ]; then
        fail "line $1: its build did not show how far it was"
    fi
}

# compare LINE: what the commands of the block before wrote ends with the block in $work/block
compare() {
    if [ "$mode" = list ]; then
        echo "readme: line $1: what they write"
        return
    fi
    compared=$((compared + 1))
    tail -n "$(wc -l <"$work/block")" "$work/written" | diff "$work/block" - || fail "line $1: what README shows is not what they write"
}

# take LINE LANGUAGE: the block in $work/block, which begins at a line
take() {
    local word line number=$1 commands=
    read -r word _ <"$work/block"
    [[ -z $2 || $2 = sh ]] && [[ $first_words == *" $word "* ]] && commands=1
    if [ -n "$commands" ]; then
        : >"$work/written"
        while IFS= read -r line <&3; do
            run "$line" "$number"
            number=$((number + 1))
        done 3<"$work/block"
        after_commands=1
    elif [ -n "$after_commands" ] && [ -z "$2" ]; then
        compare "$1"
        after_commands=
    else
        echo "readme: line $1: not run, it shows no command: $(head -n 1 "$work/block")"
        after_commands=
    fi
}

# The blocks of README, each as a line 'LINE LANGUAGE TEXT' (a - for none, and 1 where text stands between it and the block before) and a
# file $work/blocks/LINE.
cut_blocks() {
    mkdir "$work/blocks"
    awk -v folder="$work/blocks" '
        function begin(language) { start = NR; print start, language, text + 0; text = 0 }
        function add(line) { print line > (folder "/" start) }
        fence && /^```/ { fence = 0; start = 0; next }
        fence { if (!start) begin(tongue); add($0); next }
        /^```/ { tongue = substr($0, 4); if (tongue == "") tongue = "-"; fence = 1; start = 0; next }
        /^    / { if (!start) begin("-"); add(substr($0, 5)); next }
        /[^ ]/ { text = 1 }
        { start = 0 }
    ' README.md >"$work/index"
}

cut_blocks
if [ "$mode" != list ]; then
    make_clone || {
        echo "readme: no clone could be made" >&2
        exit 2
    }
fi
after_commands=
while read -r line language text <&4; do
    cp "$work/blocks/$line" "$work/block"
    [ "$text" = 0 ] || after_commands=
    take "$line" "${language#-}"
done 4<"$work/index"
[ "$mode" = list ] && exit 0
echo "readme: $ran commands run, $left_out left out, $compared outputs compared, $failed failed"
[ "$failed" -eq 0 ]
