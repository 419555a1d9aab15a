#!/usr/bin/env bash
# Runs the built program for each status: with a standard error that is read, one that is closed
# and one that is full, each for at most a minute. The exit status must be the same each time, and
# what is read exactly the line of the status. `rt run` in crates/linx_sim builds the program,
# and leaves it in out/.
#   bench/try statuses [PROGRAM]
set -uo pipefail
top="$(cd "$(dirname "$0")/.." && pwd)"
program="$(realpath -m "${1:-$top/crates/linx_sim/out/linx_sim}")"
[ -x "$program" ] || { echo "no program at $program" >&2; exit 1; }
work="$(mktemp -d)"
trap 'rm -rf "$work"' EXIT
wrong=0

complain() {
    echo "wrong: $*"
    wrong=$((wrong + 1))
}

# row NAME EXIT LINE INPUT OUTPUT COMMAND..
row() {
    local name=$1 exit=$2 line=$3 input=$4 output=$5 got
    shift 5
    "$@" < "$input" > "$output" 2> "$work/errors"
    got=$?
    [ "$got" = "$exit" ] || complain "$name: exit status $got, not $exit"
    printf '%s' "$line" | cmp -s - "$work/errors" || complain "$name: $(cat "$work/errors")"
    "$@" < "$input" > "$output" 2>&-
    got=$?
    [ "$got" = "$exit" ] || complain "$name, standard error closed: exit status $got, not $exit"
    "$@" < "$input" > "$output" 2> /dev/full
    got=$?
    [ "$got" = "$exit" ] || complain "$name, standard error full: exit status $got, not $exit"
    echo "$name: $exit"
}

# plain WORDS..: the program. row calls this one, and the two below.
# shellcheck disable=SC2317
plain() {
    timeout 60 "$program" "$@"
}

# shown WORD: what is said of it, its first 64 bytes.
shown() {
    printf '%.64s' "$1"
}

# limited KILOBYTES WORDS..: the program in so much address space.
# shellcheck disable=SC2317
limited() {
    (ulimit -v "$1" && shift && plain "$@")
}

# named NAME WORDS..: the program under another name, which the inner shell expands.
# shellcheck disable=SC2016,SC2317
named() {
    timeout 60 bash -c 'exec -a "$0" "$@"' "$1" "$program" "${@:2}"
}

script="$top/crates/self_send_program/data/self_send.linx"
printf 'node n\nnod m\n' > "$work/bad"
# an actor shares a filling with the one before it where they are equal: so these take turns
printf '%s\n' 'node n' 'actor p n' 'open a' 'repeat 300' 'send self 1 fill:65532:00' \
    'send self 1 fill:65532:01' 'end' 'close' 'end' > "$work/large"
words='the words are: run serial seed find seeds order replay check chart gen stream gateway help version'
usage="linx_sim: usage: linx_sim WORD ..; $words"$'\n'
printf x > "$work/closed" && chmod 000 "$work/closed"

row 'done' 0 '' "$script" "$work/text" plain run
cmp -s "$work/text" "$top/crates/self_send_program/stdout" || complain 'done: another text'
row 'another name' 0 '' "$script" "$work/text" named $'\xff' run
cmp -s "$work/text" "$top/crates/self_send_program/stdout" || complain 'another name: another text'
row 'a file' 0 '' / "$work/text" plain run "$script"
cmp -s "$work/text" "$top/crates/self_send_program/stdout" || complain 'a file: another text'
row 'a dash' 0 '' "$script" "$work/text" plain serial -
cmp -s "$work/text" "$top/crates/self_send_program/stdout" || complain 'a dash: another text'
row 'a seed' 0 '' "$script" "$work/text" plain seed 7
cmp -s "$work/text" "$top/crates/self_send_program/stdout" || complain 'a seed: another text'
row 'a seed and a file' 0 '' / "$work/text" plain seed 8 "$script"
cmp -s "$work/text" "$top/crates/self_send_program/stdout" || complain 'a seed: another text'
row 'a generated script' 0 '' / "$work/text" plain gen 7
[ "$(wc -l < "$work/text")" = 10 ] || complain 'a generated script: no summary'
row 'help' 0 '' / "$work/text" plain --help
[ -s "$work/text" ] || complain 'help: nothing was written'
row 'version' 0 '' / "$work/text" plain -V
[ "$(cat "$work/text")" = 'linx_sim 1.0' ] || complain 'version: another text'
row 'no words' 1 "$usage" "$script" "$work/text" plain
row 'another word' 1 $'linx_sim: no word \'seriel\': did you mean \'serial\'?\n' "$script" \
    "$work/text" plain seriel
row 'three words' 1 $'linx_sim: usage: linx_sim run [FILE]\n' "$script" "$work/text" plain run a b
row 'a number too large' 1 $'linx_sim: usage: linx_sim gen N\n' "$script" "$work/text" \
    plain gen 4294967296
row 'no seed' 1 $'linx_sim: usage: linx_sim seed S [FILE]\n' "$script" "$work/text" plain seed x
row 'no clients' 1 $'linx_sim: usage: linx_sim gateway N [--journal FILE]\n' "$script" "$work/text" \
    plain gateway 17
row 'no file of a journal' 1 $'linx_sim: usage: linx_sim gateway N [--journal FILE]\n' "$script" \
    "$work/text" plain gateway 4 --journal
row 'a dashed word' 1 "linx_sim: no word '-x'; $words"$'\n' "$script" "$work/text" plain -x
row 'an empty word' 1 "linx_sim: no word ''; $words"$'\n' "$script" "$work/text" plain ''
row 'a word that is not UTF-8' 1 "$usage" "$script" "$work/text" plain $'run\xff'
row 'a long word' 1 "$usage" "$script" "$work/text" plain "$(printf 'run%.0s' {1..4000})"
row 'a bad line' 2 \
    $'linx_sim: script line 2: no statement begins with this word here: nod\n' "$work/bad" \
    "$work/text" plain run
row 'a read fault' 3 $'linx_sim: read fault\n' / "$work/text" plain run
row 'a missing file' 3 "linx_sim: missing: no such file"$'\n' "$script" "$work/text" \
    plain run missing
row 'a folder' 3 $'linx_sim: /: is a folder\n' "$script" "$work/text" plain serial /
if [ "$(id -u)" != 0 ]; then
    row 'a closed file' 3 "linx_sim: $(shown "$work/closed"): not allowed"$'\n' "$script" \
        "$work/text" plain serial "$work/closed"
fi
row 'a write fault' 4 $'linx_sim: write fault\n' "$script" /dev/full plain run
row 'a full journal' 5 \
    $'linx_sim: journal full after step 513, by the limit of 67108864 bytes of signals\n' \
    "$work/large" "$work/text" plain run
[ -s "$work/text" ] && complain 'a full journal: something was written'
row 'a search' 0 '' "$script" "$work/text" plain find 1 9 took _ 5
[ "$(cat "$work/text")" = $'seed 1\ntook 1.1 5 -' ] || complain 'a search: another text'
row 'a search in a file' 0 '' / "$work/text" plain find 3 9 in "$script" not took _ 6
[ "$(cat "$work/text")" = 'seed 3' ] || complain 'a search in a file: another text'
row 'a search in vain' 7 $'linx_sim: found in none\n' "$script" "$work/text" plain find 1 9 down
[ -s "$work/text" ] && complain 'a search in vain: something was written'
row 'a search of full journals' 5 \
    $'linx_sim: journal full after step 513, by the limit of 67108864 bytes of signals\n' \
    "$work/large" "$work/text" plain find 1 9 down
row 'a search for no words' 1 $'linx_sim: usage: linx_sim find A B [progress] [in FILE] [not] WORD ..\n' \
    "$script" "$work/text" plain find 1 9 not
printf '\1\1' > "$work/torn"
plain run < "$script" > "$work/printed"
row 'an order' 0 '' "$work/printed" "$work/text" plain order
[ -s "$work/text" ] || complain 'an order: no lines'
head -1 "$work/printed" > "$work/front"
row 'no printed text' 8 $'linx_sim: text line 2: no line of a printed text\n' "$work/front" \
    "$work/text" plain order
{ cat "$script"; echo text; cat "$work/printed"; } > "$work/both"
row 'a replay' 0 '' "$work/both" "$work/text" plain replay
[ "$(cat "$work/text")" = 'same 5' ] || complain 'a replay: another text'
sed 's/^took 1.1 5/took 1.1 6/' "$work/both" > "$work/other"
row 'another text' 7 $'linx_sim: text line 4: the run has another line here\n' "$work/other" \
    "$work/text" plain replay
row 'a check' 0 '' "$work/both" "$work/text" plain check
[ "$(cat "$work/text")" = 'legal 5' ] || complain 'a check: another text'
row 'a replay without a text' 8 $'linx_sim: no line `text` behind the script\n' "$script" \
    "$work/text" plain replay
row 'a torn stream' 9 $'linx_sim: torn at 0\n' "$work/torn" "$work/text" plain stream
row 'a bad stream' 11 $'linx_sim: bad stream at 0\n' "$work/bad" "$work/text" plain stream
printf '\0\0\0\5\1\1\0\0a' > "$work/open"
head -c 8 "$work/open" > "$work/part"
printf '\0\0\0\14\201\1\0\0\0\0\0\1\0\0\0\1' > "$work/opened"
row 'a gateway' 0 '' "$work/open" "$work/text" plain gateway 4
cmp -s "$work/text" "$work/opened" || complain 'a gateway: another reply'
row 'a journal that is kept' 0 '' "$work/open" "$work/text" plain gateway 4 --journal "$work/journal"
cmp -s "$work/text" "$work/opened" || complain 'a journal that is kept: another reply'
[ "$(cat "$work/journal")" = $'log 1.1 a g\njournal 1\n1 A1 open a\n+ opened 1.1' ] ||
    complain 'a journal that is kept: another text'
row 'a folder for a journal' 4 $'linx_sim: /: is a folder\n' "$work/open" "$work/text" \
    plain gateway 4 --journal /
[ -s "$work/text" ] && complain 'a folder for a journal: something was replied'
row 'no folder for a journal' 4 $'linx_sim: missing/a: no such folder\n' "$work/open" "$work/text" \
    plain gateway 4 --journal missing/a
row 'a full file' 4 $'linx_sim: /dev/full: write fault\n' "$work/open" "$work/text" \
    plain gateway 4 --journal /dev/full
cmp -s "$work/text" "$work/opened" || complain 'a full file: another reply'
row 'a torn request' 9 $'linx_sim: torn at 0\n' "$work/part" "$work/text" plain gateway 4
row 'a bad request' 11 $'linx_sim: bad stream at 0\n' "$work/bad" "$work/text" plain gateway 4
limited 30000 run < "$work/large" > "$work/text" 2> "$work/errors"
[ $? = 6 ] || complain 'out of memory: another exit status'
grep -qx 'linx_sim: out of memory\( after step [0-9]*\)\?' "$work/errors" ||
    complain "out of memory: $(cat "$work/errors")"
plain gen 7 | head -n 1 > "$work/text"
[ "${PIPESTATUS[0]}" = 0 ] || [ "${PIPESTATUS[0]}" = 4 ] || [ "${PIPESTATUS[0]}" = 141 ] ||
    complain 'into head: another exit status'
[ "$wrong" = 0 ] && echo 'all as they should be'
exit "$((wrong > 0))"
