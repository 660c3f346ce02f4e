# Out of memory: each allocation of the program refused in turn, with and without a file.
# Takes minutes.

refuse() {
    local good=no
    if tools/refuse-growths "$@" >"$work/out" 2>&1; then good=yes; fi
    note "tools/refuse-growths $*: $(tail -1 "$work/out")" "$good"
}

for words in "value|$position" "probe|--db|$lions|$position" "line|--db|$lions|$position" "check|--db|$lions" \
    "look|--db|$lions|$position" "reach|--levels|$position" "reach|--db|$lions|$position" "show|$position" "show|--db|$lions|$position" \
    "reach|--db|$lions|--values|--json|$position" \
    "line|--numbered|--db|$lions|$position" "line|--records|--db|$lions|$position" "stats|--db|$lions" "stats|--csv|--db|$lions" \
    "zugzwangs|--db|$lions|--list|2" "best|--db|$lions|$position" "moves|--db|$lions|$position" \
    "puzzles|--db|$lions|--plies|3|--count|5" "puzzles|--db|$lions|--plies|3|--count|5|--numbered|--random|10|--from|28"; do
    IFS='|' read -r -a given <<<"$words"
    refuse "${given[@]}"
done
printf '%s\n' "$position" "$long" x '.../.../..l/L.. - -' >"$work/lines"
refuse --input "$work/lines" probe --db "$lions" --each
for word in look moves best line; do
    refuse --input "$work/lines" "$word" --db "$lions" --each
done
# a build and a picture report out of memory too where they make their file, and leave the file that was there; where nothing is refused the file is that
# of testdata
cp testdata/one_chick.db "$work/kept.db"
./dobutsu show --svg "$work/first.svg" "$position" >"$work/out"
refuse --keeps "$work/kept.db" --makes "$lions_2" build --set 000 --nodes 2 --out "$work/kept.db"
refuse --keeps "$work/kept.db" --makes "$lions_2" migrate --db "$lions" --out "$work/kept.db"
# and so does a certificate; and one is read
./dobutsu certify --db "$lions" --out "$work/kept.cert" --exact "$position" >"$work/out"
refuse --keeps "$work/kept.cert" certify --db "$lions" --out "$work/kept.cert" --exact "$position"
refuse verify --cert "$work/kept.cert"
refuse reply --cert "$work/kept.cert" "$position"
refuse --keeps "$work/first.svg" show --db "$lions" --svg "$work/first.svg" '.../.l./.L./... - -'
# worlds and crews, whose answers print all that they hold, and a share whose lists have segments of four items; where nothing is refused the answer is
# that from outside, the table of lions alone by its numbers
answers=crates/dob_answers/out/dob_answers
[ -x "$answers" ] || (cd crates/dob_answers && rt run) </dev/null >/dev/null 2>&1
for question in 'drive 000 2 1 2 100000' 'alone 000 100000' 'built 000 2 1 1' 'apply 000 46 d>w7 d>w5 d>l6 w1>l2 d>l6 d>l4'; do
    echo "$question" >"$work/question"
    paste -d '\n' crates/dob_answers/stdin crates/dob_answers/stdout | grep -xF -A1 -e "$question" | sed 1d >"$work/answer"
    refuse --program "$answers" --input "$work/question" --tells "$work/answer"
done
# a world that stops has the lists of one to which the same has happened, except the event at which it stopped
tests=crates/dob_tests_nodes/out/dob_tests_nodes_tests
[ -x "$tests" ] || (cd crates/dob_tests_nodes && rt test) </dev/null >/dev/null 2>&1
refuse --program "$tests" world::stops::a_stopped_world_is_as_before
# a world that is driven and a build by threads: out of memory and nothing else, and in the end the table from outside
refuse --program "$tests" world::stops::driven_while_growths_are_refused
tests=crates/dob_tests_threads/out/dob_tests_threads_tests
[ -x "$tests" ] || (cd crates/dob_tests_threads && rt test) </dev/null >/dev/null 2>&1
refuse --program "$tests" run::builds::built_while_growths_are_refused
