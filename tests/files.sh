# The subcommands that ask a file, draw, or convert a file: what they print, and which files they leave.

# Files: the one of lions alone (testdata, from outside values), files that aren't there, a folder, and files that are none.
expect 0 'consistent' '' check --db "$lions"
expect 0 'win 3' '' probe --db "$lions" "$position"
expect 0 'loss 2' '' probe '.../.../..l/L.. - -' --db "$lions"
expect 0 'draw' '' probe --db="$lions" '.l./.../.L./... - -'
expect 0 'La2-a3 lc4-b4 La3xb4' '' line --db "$lions" "$position"
expect 0 'La3-a4' '' line --db "$lions" '..l/L../.../... - -'
expect 0 'end' '' line --db "$lions" '.../L../.../..l - -'
expect 0 'La1-b1 lc2xb1' '' line --db "$lions" '.../.../..l/L.. - -'
expect 0 'Lb1-b2 lb4-c4 Lb2-a3 lc4-b4 La3xb4' '' line --db "$lions" "$long"
expect 0 'draw' '' line --db "$lions" '.l./.../.L./... - -'
expect 0 'Lb2xb3' '' line --db "$lions" '.../.l./.L./... - -'
# a move a line, with its number
expect 0 '1. La2-a3
2. lc4-b4
3. La3xb4' '' line --db "$lions" --numbered "$position"
expect 0 '1. La1-b1
2. lc2xb1' '' line --numbered '.../.../..l/L.. - -' --db="$lions"
expect 0 '1. La3-a4' '' line --db "$lions" '..l/L../.../... - -' --numbered
expect 0 'end' '' line --db "$lions" --numbered '.../L../.../..l - -'
expect 0 'draw' '' line --db "$lions" --numbered -- '.l./.../.L./... - -'
# the same by the records that it needs
expect 0 'La2-a3 lc4-b4 La3xb4' '' line --records --db "$lions" "$position"
expect 0 '1. La1-b1
2. lc2xb1' '' line --numbered --records '.../.../..l/L.. - -' --db="$lions"
# how many classes have which value, counted of testdata/lions_alone.txt by hand of each class, and the first of the longest
expect 0 'classes 54
win 38
loss 12
draw 4
loss 0 7
win 1 29
loss 2 2
win 3 3
loss 4 1
win 5 3
loss 6 2
win 7 3
longest win 7 l../.../.../L.. - -
longest loss 6 .../l../.../L.. - -' '' stats --db "$lions"
expect 0 'value,classes
draw,4
loss 0,7
win 1,29
loss 2,2
win 3,3
loss 4,1
win 5,3
loss 6,2
win 7,3' '' stats --csv --db "$lions"
fails_at "$work/none.db" "$gone" stats --db "$work/none.db"
expect 1 '' 'dobutsu: E15 Truncated' stats --db /dev/null
# what can be reached, with the values, of an independent search
expect 0 'classes 39
open 21
depth 6
win 26
loss 9
draw 4' '' reach --db "$lions" "$position"
expect 0 'classes 39
open 21
depth 6
win 26
loss 9
draw 4
0 1
1 5
2 10
3 12
4 4
5 3
6 4' '' reach "$position" --levels --db "$lions"
# with a line for each value, by a plain walk and testdata/lions_alone.txt; and as JSON
expect 0 'classes 39
open 21
depth 6
win 26
loss 9
draw 4
loss 0 4
win 1 17
loss 2 2
win 3 3
loss 4 1
win 5 3
loss 6 2
win 7 3
0 1
1 5
2 10
3 12
4 4
5 3
6 4' '' reach --values "$position" --levels --db "$lions"
expect 0 '{"classes":39,"open":21,"depth":6,"win":26,"loss":9,"draw":4}
{"value":"draw","plies":null,"classes":4}
{"value":"loss","plies":0,"classes":4}
{"value":"win","plies":1,"classes":17}
{"value":"loss","plies":2,"classes":2}
{"value":"win","plies":3,"classes":3}
{"value":"loss","plies":4,"classes":1}
{"value":"win","plies":5,"classes":3}
{"value":"loss","plies":6,"classes":2}
{"value":"win","plies":7,"classes":3}
{"ply":0,"classes":1}
{"ply":1,"classes":5}
{"ply":2,"classes":10}
{"ply":3,"classes":12}
{"ply":4,"classes":4}
{"ply":5,"classes":3}
{"ply":6,"classes":4}' '' reach --json --values --levels --db "$lions" "$position"
expect 0 '{"classes":39,"open":21,"depth":6,"win":26,"loss":9,"draw":4}' '' reach --json --db "$lions" "$position"
expect 0 '{"classes":39,"open":21,"depth":6}' '' reach --json "$position"
expect 0 'classes 1
open 0
depth 0
win 0
loss 1
draw 0
loss 0 1' '' reach --values --db "$lions" '.../L../.../..l - -'
# a chick in the hand: by a plain walk and testdata/one_chick.txt
expect 0 'classes 1440
open 726
depth 19
win 1010
loss 386
draw 44
loss 0 125
win 1 691
loss 2 81
win 3 113
loss 4 38
win 5 83
loss 6 76
win 7 75
loss 8 28
win 9 11
loss 10 8
win 11 4
loss 12 5
win 13 18
loss 14 12
win 15 7
loss 16 8
win 17 6
loss 18 5
win 19 2' '' reach --values --db "$chick" '..l/.../L../... C -'
expect 1 '' 'dobutsu: E7 OtherSet' reach --values --db "$lions" '..l/.../.../L.. C -'
expect 1 '' 'dobutsu: E7 OtherSet' reach --db "$lions" '..l/.../.../L.. C -'
expect 1 '' 'dobutsu: E1 Shape' reach --db "$work/none.db" ''
fails_at "$work/none.db" "$gone" reach --db "$work/none.db" "$position"
# the moves with their values, best first
expect 0 'La2-a3 win 3
La2-b2 draw
La2-a1 loss 8
La2-b1 loss 6
La2-b3 loss 2' '' moves --db "$lions" "$position"
expect 0 'La1-b1 loss 2
La1-a2 loss 2
La1-b2 loss 2' '' moves '.../.../..l/L.. - -' --db "$lions"
expect 0 'Lb2xb3 win 1' '' moves --db "$lions" '.../.l./.L./... - -'
expect 0 'end' '' moves --db "$lions" '.../L../.../..l - -'
expect 1 '' 'dobutsu: E7 OtherSet' moves --db "$lions" '..l/.../.../L.. C -'
expect 1 '' 'dobutsu: E1 Shape' moves --db "$work/none.db" ''
fails_at "$work/none.db" "$gone" moves --db "$work/none.db" "$position"
# the first of them
expect 0 'La2-a3 win 3' '' best --db "$lions" "$position"
expect 0 'La1-b1 loss 2' '' best '.../.../..l/L.. - -' --db "$lions"
expect 0 'Lb2xb3 win 1' '' best --db "$lions" '.../.l./.L./... - -'
expect 0 'end' '' best --db "$lions" '.../L../.../..l - -'
expect 1 '' 'dobutsu: E7 OtherSet' best --db "$lions" '..l/.../.../L.. C -'
expect 1 '' 'dobutsu: E1 Shape' best --db "$work/none.db" ''
fails_at "$work/none.db" "$gone" best --db "$work/none.db" "$position"
# each line of standard input: positions, some of them refused, lines of other systems, and a last line without its end
answers_of() {
    local status=0 word="$1" wanted="$2" input="$3" out="$4" good=no
    shift 4
    printf "$input" | ./dobutsu "$word" --each "$@" >"$work/out" 2>"$work/err" || status=$?
    if [ "$status" = "$wanted" ] && [ ! -s "$work/err" ] && printf "$out" | cmp -s - "$work/out"; then good=yes; fi
    note "./dobutsu $word --each $(printf '%q ' "$@"): status $status, $(head -c 80 "$work/out" | tr '\n' ' ')" "$good"
}
answers() { answers_of probe "$@"; }
answers 0 '' '' --db "$lions"
answers 0 "$position"'\n.../.../..l/L.. - -\n.l./.../.L./... - -\n' 'win 3\nloss 2\ndraw\n' --db "$lions"
answers 0 "$position"'\r\n.../.../..l/L.. - -\r\n.l./.../.L./... - -' 'win 3\nloss 2\ndraw\n' --db="$lions"
answers 1 "$position"'\n..l/.../L../... - x\n\n\377\n..l/.../.../L.. C -\nL../.../.../..l - -\n.../.../..l/L.. - -\n' \
    'win 3\nE3 Hand\nE1 Shape\nE1 Shape\nE7 OtherSet\nE6 FarLion\nloss 2\n' --db "$lions"
# a line's end, and what looks like one
answers 1 '\r\n' 'E1 Shape\n' --db "$lions"
answers 1 "$position"'\r' 'E3 Hand\n' --db "$lions"
answers 1 '\0.l/.../.../L.. - -\n' 'E2 Letter\n' --db "$lions"
fails_at "$work/none.db" "$gone" probe --each --db "$work/none.db"
expect 1 '' 'dobutsu: E15 Truncated' probe --each --db /dev/null
fails_at 'standard input' "$folder" probe --each --db "$lions" <"$work"
# the same by each position's own record; of a file that is cut inside one, that line alone is refused
answers_of look 1 "$position"'\n..l/.../L../... - x\n\n\377\n..l/.../.../L.. C -\nL../.../.../..l - -\n.../.../..l/L.. - -\n.l./.../.L./... - -' \
    'win 3\nE3 Hand\nE1 Shape\nE1 Shape\nE7 OtherSet\nE6 FarLion\nloss 2\ndraw\n' --db "$lions"
answers_of look 0 '' '' --db "$lions"
head -c 77 "$lions" >"$work/cut.db"
answers_of look 1 "$position"'\n.../.../..l/L.. - -\n' 'E15 Truncated\nloss 2\n' --db "$work/cut.db"
fails_at "$work/none.db" "$gone" look --each --db "$work/none.db"
expect 1 '' 'dobutsu: E15 Truncated' look --each --db /dev/null
fails_at 'standard input' "$folder" look --each --db "$lions" <"$work"
# moves, the first of them and lines for each: an empty line stands behind an answer of several lines; of a file that is cut the record that isn't whole
# is told
asked="$position"'\n..l/.../L../... - x\n.../.../..l/L.. - -\n..l/.../.../L.. C -\n.l./.../.L./... - -\n'
answers_of moves 1 "$position"'\n..l/.../L../... - x\n.../.../..l/L.. - -\n' \
    'La2-a3 win 3\nLa2-b2 draw\nLa2-a1 loss 8\nLa2-b1 loss 6\nLa2-b3 loss 2\n\nE3 Hand\n\nLa1-b1 loss 2\nLa1-a2 loss 2\nLa1-b2 loss 2\n\n' --db "$lions"
answers_of best 1 "$position"'\n..l/.../L../... - x\n.../.../..l/L.. - -\n..l/.../.../L.. C -\n.../L../.../..l - -' \
    'La2-a3 win 3\nE3 Hand\nLa1-b1 loss 2\nE7 OtherSet\nend\n' --db "$lions"
answers_of line 1 "$asked" 'La2-a3 lc4-b4 La3xb4\nE3 Hand\nLa1-b1 lc2xb1\nE7 OtherSet\ndraw\n' --db "$lions"
answers_of line 1 "$asked" '1. La2-a3\n2. lc4-b4\n3. La3xb4\n\nE3 Hand\n\n1. La1-b1\n2. lc2xb1\n\nE7 OtherSet\n\ndraw\n\n' --db "$lions" --numbered
answers_of line 1 "$position"'\n' 'E15 Truncated\n' --db "$work/cut.db"
# a line of standard input is answered by records, whether that is said or not
{ cat "$lions"; printf '\0'; } >"$work/longer.db"
for given in '' --records; do answers_of line 0 "$position"'\n' 'La2-a3 lc4-b4 La3xb4\n' --db "$work/longer.db" $given; done
for word in moves best line; do
    answers_of "$word" 0 '' '' --db "$lions"
    fails_at "$work/none.db" "$gone" "$word" --each --db "$work/none.db"
    expect 1 '' 'dobutsu: E15 Truncated' "$word" --each --db /dev/null
    fails_at 'standard input' "$folder" "$word" --each --db "$lions" <"$work"
done
# as JSON: a value, moves, a line, statistics; of each line of standard input an object, also for its fault
for word in probe look; do
    expect 0 '{"position":"..l/.../L../... - -","value":"win","plies":3}' '' "$word" --json --db "$lions" "$position"
    expect 0 '{"position":".l./.../.L./... - -","value":"draw","plies":null}' '' "$word" '.l./.../.L./... - -' --db "$lions" --json
    expect 1 '' 'dobutsu: E1 Shape' "$word" --json --db "$lions" ''
    answers_of "$word" 1 "$position"'\n\n\377"\n..l/.../.../L.. C -\n' \
        '{"position":"..l/.../L../... - -","value":"win","plies":3}\n{"fault":"E1 Shape"}\n{"fault":"E1 Shape"}\n{"fault":"E7 OtherSet"}\n' --db "$lions" --json
done
expect 0 '{"position":".../.l./.L./... - -","moves":[{"move":"Lb2xb3","kind":"lion","from":"b2","to":"b3","catch":true,"value":"win","plies":1}]}' '' \
    moves --json --db "$lions" '.../.l./.L./... - -'
expect 0 '{"position":".../L../.../..l - -","moves":[]}' '' moves --json --db "$lions" '.../L../.../..l - -'
expect 0 '{"position":".../.../..l/L.. - -","value":"loss","plies":2,"moves":[{"move":"La1-b1","kind":"lion","from":"a1","to":"b1","catch":false},'\
'{"move":"lc2xb1","kind":"lion","from":"c2","to":"b1","catch":true}]}' '' line --json --numbered --db "$lions" '.../.../..l/L.. - -'
expect 0 '{"position":".../.l./.L./... - -","value":"win","plies":1,"moves":[{"move":"Lb2xb3","kind":"lion","from":"b2","to":"b3","catch":true}]}' '' \
    line --records --json --db "$lions" '.../.l./.L./... - -'
expect 0 '{"position":".l./.../.L./... - -","value":"draw","plies":null,"moves":[]}' '' line --json --db "$lions" '.l./.../.L./... - -'
expect 0 '{"value":"draw","plies":null,"classes":4}
{"value":"loss","plies":0,"classes":7}
{"value":"win","plies":1,"classes":29}
{"value":"loss","plies":2,"classes":2}
{"value":"win","plies":3,"classes":3}
{"value":"loss","plies":4,"classes":1}
{"value":"win","plies":5,"classes":3}
{"value":"loss","plies":6,"classes":2}
{"value":"win","plies":7,"classes":3}' '' stats --json --csv --db "$lions"
misused "'--json'" best --json --db "$lions" "$position"
# a whole file is tested first
for word in probe line; do expect 1 '' 'dobutsu: E19 Trailing' "$word" --json --db "$work/longer.db" "$position"; done
# each object is read by another program, and says what the lines say; here of all positions of a set, one in seven of them spoiled
sed 's/ = .*//' testdata/one_chick.txt | awk 'NR % 7 == 0 { sub("/", "\"") } 1' >"$work/asked"
good=yes
for word in probe look moves line; do
    ./dobutsu "$word" --each --db "$chick" <"$work/asked" >"$work/$word.txt"
    ./dobutsu "$word" --each --json --db "$chick" <"$work/asked" >"$work/$word.json"
done
python3 tests/files_objects.py "$work" >"$work/out" 2>&1 || good=no
note "objects of probe, look, moves and line: $(tail -1 "$work/out")" "$good"
# without its file, or with an empty one, a word reads nothing of what is typed
: >"$work/empty.db"
for word in probe look moves best line; do
    for name in none empty; do
        printf '%s\n' "$position" | { "$program" "$word" --each --db "$work/$name.db" 2>"$work/err"; cat; } >"$work/out"
        if holds "$work/out" "$position" && [ -s "$work/err" ]; then good=yes; else good=no; fi
        note "$word --each by $name.db leaves standard input: $(head -c 80 "$work/out")" "$good"
    done
done
# the file is opened once for all lines
if command -v strace >/dev/null && strace -qq -o "$work/calls" true 2>/dev/null; then
    for word in probe look; do
        printf '%s\n' "$position" "$long" | strace -f -qq -e trace=open,openat -o "$work/calls" "$program" "$word" --each --db "$lions" >"$work/out" 2>&1
        if [ "$(grep -c 'lions_alone\.db' "$work/calls")" = 1 ] && holds "$work/out" $'win 3\nwin 5'; then good=yes; else good=no; fi
        note "$word --each opens its file once" "$good"
    done
else
    echo 'Not run: how often --each opens its file, since no strace is here.'
fi
# a program can talk with each of them over two pipes: a line is answered before the next one is whole, a refused one too, whatever was written of it
talks() {
    local word="$1" answer="$2" status=0 good=yes said into from one
    coproc talk { exec "$program" "$word" --each --db "$lions" 2>"$work/err"; }
    into="${talk[1]}" from="${talk[0]}" one="$talk_PID"
    hears() {
        IFS= read -r -t 20 said <&"$from" && [ "$said" = "$1" ] || good=no
        while [ "$word" = moves ] && [ -n "$said" ]; do IFS= read -r -t 20 said <&"$from" || break; done
    }
    printf '%s\n' "$position" >&"$into"
    hears "$answer"
    printf 'x\n..l/...' >&"$into"
    hears 'E1 Shape'
    printf '/L../... - -\n' >&"$into"
    hears "$answer"
    exec {into}>&-
    IFS= read -r -t 20 said <&"$from" && good=no
    wait "$one" || status=$?
    [ "$status" = 1 ] && [ ! -s "$work/err" ] || good=no
    note "a program talks with ./dobutsu $word --each: status $status, $said" "$good"
}
talks probe 'win 3'
talks look 'win 3'
talks best 'La2-a3 win 3'
talks line 'La2-a3 lc4-b4 La3xb4'
talks moves 'La2-a3 win 3'
# positions that one move alone wins soonest; a length that no puzzle has is refused before the file is looked for
expect 0 '.../..l/L../... - -  La2-a3
..l/.../L../... - -  La2-a3
l../.../.L./... - -  Lb2-c3' '' puzzles --db "$lions" --plies 3 --count 5
expect 0 '.l./.../.../L.. - -  La1-b2' '' puzzles --count 1 --db="$lions" --plies=5
expect 0 'l../.../.../L.. - -  La1-a2
..l/.../.../L.. - -  La1-a2' '' puzzles --db "$lions" --plies 7 --count 18446744073709551615
expect 0 'none' '' puzzles --db "$lions" --plies 9 --count 5
expect 0 'none' '' puzzles --db "$lions" --plies 3 --count 0
expect 0 'none' '' puzzles --db "$lions" --plies 18446744073709551615 --count 1
# behind the class of a number, its own left out; in the order of a seed, by an independent program; and both
expect 0 '25  .../..l/L../... - -  La2-a3
28  ..l/.../L../... - -  La2-a3' '' puzzles --db "$lions" --plies 3 --count 2 --numbered
expect 0 '34  l../.../.L./... - -  Lb2-c3' '' puzzles --db "$lions" --plies 3 --count 2 --numbered --from 28
expect 0 'none' '' puzzles --db "$lions" --plies 3 --count 2 --from 34
for class in 53 54 18446744073709551615; do
    expect 0 'none' '' puzzles --db "$lions" --plies 3 --count 2 --from "$class"
    expect 0 'none' '' puzzles --db "$lions" --plies 3 --count 2 --from "$class" --random 10
done
expect 0 '34  l../.../.L./... - -  Lb2-c3
28  ..l/.../L../... - -  La2-a3
25  .../..l/L../... - -  La2-a3' '' puzzles --db "$lions" --plies 3 --count 5 --random 10 --numbered
expect 0 '28  ..l/.../L../... - -  La2-a3
25  .../..l/L../... - -  La2-a3' '' puzzles --db "$lions" --plies 3 --count 5 --random 10 --from 34 --numbered
expect 0 'none' '' puzzles --db "$lions" --plies 3 --count 5 --random 10 --from 25
expect 0 '.l./.../.../L.. - -  La1-b2' '' puzzles --db "$lions" --plies 5 --count 1 --random 2
expect 0 'none' '' puzzles --db "$lions" --plies 9 --count 1 --random 18446744073709551615
# in the order of a seed no two have the lions on the same squares and as many pieces of each kind on the board
expect 0 '652  .../l../.../CL. - -  Lb1-c2
508  ..l/.../.../LC. - -  La1-a2
436  l../.../C../L.. - -  La1-b2
735  l../.../..h/.L. - -  Lb1xc2
490  .l./c../.../L.. - -  La1-b2' '' puzzles --db "$chick" --plies 7 --count 5 --random 2 --numbered
expect 0 '~^' '' puzzles --db "$chick" --plies 3 --count 100 --random 1
note 'twelve puzzles of 93 are left of which no two are alike' "$([ "$(wc -l <"$work/out")" = 12 ] && echo yes || echo no)"
# A thousand seeds draw one puzzle each of the 93. Each comes up, and how often: the sum of the squares of what is too many or too few, by what is wanted,
# stays below 141 in 999 of 1,000 draws at random (92 degrees of freedom). By a start at random it is 15,828, and half of them never come up.
for seed in $(seq 1000); do "$program" puzzles --db "$chick" --plies 3 --count 1 --random "$seed" --numbered; done >"$work/drawn"
good="$(awk '
    { drawn[$1]++ }
    END {
        for (class in drawn) { seen++; far += (drawn[class] - 1000 / 93) ^ 2 }
        print (seen == 93 && far * 93 / 1000 < 141) ? "yes" : "no"
    }' "$work/drawn")"
note 'a thousand seeds draw each puzzle about as often' "$good"
for plies in 0 1 2 4 18446744073709551614; do
    expect 2 '' 'dobutsu: --plies is an odd number of at least 3' puzzles --db "$work/none.db" --plies "$plies" --count 1
done
fails_at "$work/none.db" "$gone" puzzles --db "$work/none.db" --plies 3 --count 1
expect 1 '' 'dobutsu: E15 Truncated' puzzles --db /dev/null --plies 3 --count 1
# the board as it is drawn
expect 0 'The other side: small letters, going down the board.
In hand: nothing

     a   b   c
   +---+---+---+
 4 | g | l | e | 4
   +---+---+---+
 3 |   | c |   | 3
   +---+---+---+
 2 |   | C |   | 2
   +---+---+---+
 1 | E | L | G | 1
   +---+---+---+
     a   b   c

The side to move: capital letters, going up the board.
In hand: nothing

L lion, G giraffe, E elephant, C chick, H hen' '' show 'gle/.c./.C./ELG - -'
expect 0 'The other side: small letters, going down the board.
In hand: cg

     a   b   c
   +---+---+---+
 4 |   |   | l | 4
   +---+---+---+
 3 | e |   |   | 3
   +---+---+---+
 2 |   |   | H | 2
   +---+---+---+
 1 | L |   |   | 1
   +---+---+---+
     a   b   c

The side to move: capital letters, going up the board.
In hand: EG

L lion, G giraffe, E elephant, C chick, H hen' '' show '..l/e../..H/L.. EG cg'
expect 1 '' 'dobutsu: E6 FarLion' show 'L../.../.../..l - -'
# with its value and its line by a file, and as a picture
shown='The other side: small letters, going down the board.
In hand: nothing

     a   b   c
   +---+---+---+
 4 |   |   | l | 4
   +---+---+---+
 3 |   |   |   | 3
   +---+---+---+
 2 | L |   |   | 2
   +---+---+---+
 1 |   |   |   | 1
   +---+---+---+
     a   b   c

The side to move: capital letters, going up the board.
In hand: nothing

L lion, G giraffe, E elephant, C chick, H hen'
played="$shown"'

win 3
1. La2-a3
2. lc4-b4
3. La3xb4'
expect 0 "$shown" '' show "$position"
expect 0 "$played" '' show --db "$lions" "$position"
expect 0 "$shown" '' show "$position" --svg "$work/picture.svg"
cp "$work/picture.svg" "$work/first.svg"
printf 'left' >"$work/picture.svg"
expect 0 "$played" '' show --svg="$work/picture.svg" --db="$lions" "$position"
if cmp -s "$work/first.svg" "$work/picture.svg" && [ ! -e "$work/picture.svg.part" ] && head -1 "$work/picture.svg" | grep -q '^<svg ' &&
    python3 -c 'import sys, xml.dom.minidom as dom; dom.parse(sys.argv[1])' "$work/picture.svg"; then good=yes; else good=no; fi
note "the picture of a position is one SVG, whatever was there" "$good"
expect 0 '~In hand: nothing' '' show --svg "$work/start.svg" 'gle/.c./.C./ELG - -'
if cmp -s "$work/start.svg" docs/start.svg; then good=yes; else good=no; fi
note "the picture of README is that of the starting position" "$good"
expect 0 '~^In hand: CEEG$' '' show --svg "$work/hands.svg" '..l/.../.../L.. CEEG cg'
drawn="<use href='#L' transform='translate(280 390)'/>
<use href='#L' transform='translate(480 90) rotate(180)'/>
<use href='#C' transform='translate(606 390)'/>
<use href='#E' transform='translate(606 290)'/>
<use href='#E' transform='translate(706 290)'/>
<use href='#G' transform='translate(606 190)'/>
<use href='#C' transform='translate(54 90) rotate(180)'/>
<use href='#G' transform='translate(54 290) rotate(180)'/>
</svg>"
sed '1,/side to move<\/text>/d' "$work/hands.svg" >"$work/out"
if holds "$work/out" "$drawn"; then good=yes; else good=no; fi
note "the pieces of a picture with pieces in hand" "$good"
expect 1 '' 'dobutsu: E7 OtherSet' show --db "$lions" --svg "$work/refused.svg" '..l/.../.../L.. C -'
fails_at "$work/none.db" "$gone" show --db "$work/none.db" --svg "$work/refused.svg" "$position"
expect 1 '' 'dobutsu: E1 Shape' show --svg "$work/refused.svg" ''
if [ -e "$work/refused.svg" ]; then good=no; else good=yes; fi
note "a position that isn't shown has no picture" "$good"
fails_at "$work/none/picture.svg" "$gone" show --svg "$work/none/picture.svg" "$position"
expect 0 'win 3' '' look --db "$lions" "$position"
expect 0 'loss 2' '' look '.../.../..l/L.. - -' --db "$lions"
expect 0 'draw' '' look --db="$lions" '.l./.../.L./... - -'
expect 1 '' 'dobutsu: E7 OtherSet' look --db "$lions" '..l/.../.../L.. C -'
expect 1 '' 'dobutsu: E7 OtherSet' probe --db "$lions" '..l/.../.../L.. C -'
for given in '' --records; do expect 1 '' 'dobutsu: E7 OtherSet' line $given --db "$lions" '..l/.../.../L.. C -'; done

# The position is read before the file is looked for.
expect 1 '' 'dobutsu: E1 Shape' probe --db "$work/none.db" ''
for given in '' --records; do expect 1 '' 'dobutsu: E1 Shape' line $given --db "$work/none.db" ''; done
expect 1 '' 'dobutsu: E1 Shape' look --db "$work/none.db" ''
expect 1 '' 'dobutsu: E6 FarLion' probe --db "$work/none.db" 'L../.../.../..l - -'
fails_at "$work/none.db" "$gone" probe --db "$work/none.db" "$position"
for given in '' --records; do fails_at "$work/none.db" "$gone" line $given --db "$work/none.db" "$position"; done
fails_at "$work" "$folder" line --db "$work" "$position"
fails_at "$work/none.db" "$gone" look --db "$work/none.db" "$position"
fails_at "$work" "$folder" look --db "$work" "$position"
fails_at "$work/none.db" "$gone" check --db "$work/none.db"
fails_at "$work" "$folder" check --db "$work"
expect 1 '' 'dobutsu: E15 Truncated' check --db /dev/null

# Files brought to the second format, from either, over what was there and over themselves; a damaged one leaves what was there.
for name in lions_alone lions_alone_2 one_chick one_chick_2; do
    case "$name" in lions*) classes=54 ;; *) classes=2124 ;; esac
    expect 0 "classes $classes" '' migrate --db "testdata/$name.db" --out "$work/migrated.db"
    if cmp -s "$work/migrated.db" "testdata/${name%_2}_2.db" && [ ! -e "$work/migrated.db.part" ]; then good=yes; else good=no; fi
    note "testdata/$name.db migrated is testdata/${name%_2}_2.db" "$good"
done
cp "$lions" "$work/migrated.db"
expect 0 'classes 54' '' migrate --db "$work/migrated.db" --out "$work/migrated.db"
if cmp -s "$work/migrated.db" "$lions_2"; then good=yes; else good=no; fi
note "a file migrated over itself" "$good"
{ head -c 12 "$lions_2"; printf '\1'; tail -c +14 "$lions_2"; } >"$work/other_profile.db"
expect 1 '' 'dobutsu: E20 Digest' migrate --db "$work/other_profile.db" --out "$work/migrated.db"
fails_at "$work/none.db" "$gone" migrate --db "$work/none.db" --out "$work/migrated.db"
if cmp -s "$work/migrated.db" "$lions_2" && [ ! -e "$work/migrated.db.part" ]; then good=yes; else good=no; fi
note "a file that isn't migrated leaves the one that was there" "$good"

# What a header says. The bytes are those of docs/FORMAT.md and no more than the header, so what comes after it isn't read.
headed() { printf "$1" >"$work/headed"; }
lions_header='\0\0\0\2\0\66\0\0\0\0\0\0\0'
for file in "$lions_2" "$work/headed"; do
    headed "DOBUTSU2$lions_header"
    expect 0 'set 000
rules A
format 2
classes 54' '' info "$file"
    expect 0 '{"set":"000","rules":"A","format":2,"classes":54}' '' info "$file" --json
done
headed 'DOBUTSU1\0\0\0\2\66\0\0\0\0\0\0\0'
expect 0 'set 000
rules A
format 1
classes 54' '' info "$work/headed"
headed 'DOBUTSU2\2\2\2\2\1\162\53\72\33\0\0\0\0'
expect 0 '{"set":"222","rules":"B","format":2,"classes":456797042}' '' info --json -- "$work/headed"
certificate_header='\1\0\0\0\2\0\1\0\0\0\2\0\0\0\0\0\0\0\0\0'
headed "DOBUCERT$certificate_header"
expect 0 'position .../.../.../L.l - -
claim loss 0
rules A
entries 0' '' info "$work/headed"
expect 0 '{"position":".../.../.../L.l - -","claim":"loss 0","rules":"A","entries":0}' '' info "$work/headed" --json
headed 'DOBUCERT\1\0\0\0\2\1\1\0\0\0\0\0\3\0\0\0\4\0\0\0'
expect 0 'position .../.../.../L.l - -
claim draw
rules B
entries 7' '' info "$work/headed"

# The first fault of a header, and what is neither a table's nor a certificate's.
wrong() { headed "$2"; expect 1 '' "dobutsu: $1" info "$work/headed"; }
wrong 'E15 Truncated' ''
wrong 'E15 Truncated' 'DOBUCER'
wrong 'E15 Truncated' 'DOBUTSU1\0\0\0\2\66\0\0\0\0\0\0'
wrong 'E15 Truncated' 'DOBUTSU2\0\0\0\2\0\66\0\0\0\0\0\0'
wrong 'E15 Truncated' 'DOBUCERT\1\0\0\0\2\0\1\0\0\0\2\0\0\0\0\0\0\0\0'
wrong 'E16 Magic' 'DOBUTSU3\0\0\0\2\0\66\0\0\0\0\0\0\0'
wrong 'E16 Magic' 'dobucert\1\0\0\0\2\0\1\0\0\0\2\0\0\0\0\0\0\0\0\0'
wrong 'E17 SetByte' 'DOBUTSU2\3\0\0\2\2\66\0\0\0\0\0\0\0'
wrong 'E17 SetByte' 'DOBUCERT\1\0\0\0\1\2\1\0\0\0\2\0\0\0\0\0\0\0\0\0'
wrong 'E18 ClassCount' 'DOBUTSU2\0\0\0\2\0\67\0\0\0\0\0\0\0'
wrong 'E27 ProfileByte' 'DOBUTSU2\0\0\0\2\2\67\0\0\0\0\0\0\0'
wrong 'E27 ProfileByte' 'DOBUCERT\1\0\0\0\2\2\1\0\0\0\2\0\0\0\0\0\0\0\0\0'
wrong 'E32 Version' 'DOBUCERT\2\3\0\0\2\0\1\0\0\0\2\0\0\0\0\0\0\0\0\0'
wrong 'E33 RootClass' 'DOBUCERT\1\0\0\0\2\0\66\0\0\0\2\0\0\0\0\0\0\0\0\0'
wrong 'E34 ClaimByte' 'DOBUCERT\1\0\0\0\2\0\1\0\0\0\5\0\0\0\0\0\0\0\0\0'
wrong 'E34 ClaimByte' 'DOBUCERT\1\0\0\0\2\0\1\0\0\0\0\1\0\0\0\0\0\0\0\0'
wrong 'E35 EntryCount' 'DOBUCERT\1\0\0\0\2\0\1\0\0\0\2\0\67\0\0\0\0\0\0\0'
wrong 'E35 EntryCount' 'DOBUCERT\1\0\0\0\2\0\1\0\0\0\2\0\0\0\0\0\0\0\0\1'
fails_at "$work/none.db" "$gone" info "$work/none.db"
fails_at "$work" "$folder" info "$work"
