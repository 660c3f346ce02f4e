# Faults: devices that are full, and files that are cut, too long or changed in a byte.

# A full device as standard output: status 3 and the fault's line; as standard error: the status stays.
if [ -c /dev/full ]; then
    for words in "value|$position" 'count|--set|000' '--help' 'check|--db|testdata/lions_alone.db'; do
        IFS='|' read -r -a given <<<"$words"
        status=0
        ./dobutsu "${given[@]}" >/dev/full 2>"$work/err" || status=$?
        if [ "$status" = 3 ] && holds "$work/err" "$io_line"; then good=yes; else good=no; fi
        note "./dobutsu $words >/dev/full: status $status, $(head -c 80 "$work/err")" "$good"
        status=0
        python3 tests/terminal.py "$work/err" "$program" "${given[@]}" >/dev/full || status=$?
        if [ "$status" = 3 ] && holds "$work/err" "$(caused 'standard output' "$full")"; then good=yes; else good=no; fi
        note "./dobutsu $words >/dev/full at a terminal: status $status, $(head -c 80 "$work/err")" "$good"
    done
    # a build whose lines can't be written has failed, and its file is whole
    status=0
    ./dobutsu build --set 000 --nodes 2 --out "$work/told.db" >/dev/full 2>"$work/err" || status=$?
    if [ "$status" = 3 ] && holds "$work/err" "$io_line" && cmp -s "$work/told.db" "$lions_2"; then good=yes; else good=no; fi
    note "a build >/dev/full: status $status, $(head -c 80 "$work/err")" "$good"
    for words in '1|value|x' '2|solve' "0|value|$position"; do
        IFS='|' read -r -a given <<<"$words"
        status=0
        ./dobutsu "${given[@]:1}" 2>/dev/full >"$work/out" || status=$?
        if [ "$status" = "${given[0]}" ]; then good=yes; else good=no; fi
        note "./dobutsu ${words#*|} 2>/dev/full: status $status" "$good"
    done
fi

# So has one that is closed, and the answer isn't lost without a word.
status=0
./dobutsu value "$position" >&- 2>"$work/err" || status=$?
if [ "$status" = 3 ] && holds "$work/err" "$io_line"; then good=yes; else good=no; fi
note "./dobutsu value >&-: status $status, $(head -c 80 "$work/err")" "$good"
status=0
"$program" check --db "$lions" <&- >"$work/out" 2>&- || status=$?
if [ "$status" = 0 ] && holds "$work/out" consistent; then good=yes; else good=no; fi
note "./dobutsu check <&- 2>&-: status $status" "$good"

# At a terminal the cause stands below E24 alone, and in one line: a line feed in a name is told as \n, any other control character by its bytes.
fails_at "$work/a\\nb.db" "$gone" stats --db "$work/a"$'\n'b.db
shown='\x1b[31m\x0d\x07\x7f\xc2\x85\xe2\x80\xae\xe2\x81\xa7はb.db'
fails_at "$work/$shown" "$gone" stats --db "$work/"$'\e[31m\r\a\x7f\u0085\u202e\u2067は'b.db
for words in '1|E1 Shape|value|x' '1|E15 Truncated|stats|--db|/dev/null'; do
    IFS='|' read -r -a given <<<"$words"
    status=0
    python3 tests/terminal.py "$work/err" "$program" "${given[@]:2}" >"$work/out" || status=$?
    if [ "$status" = "${given[0]}" ] && [ ! -s "$work/out" ] && holds "$work/err" "dobutsu: ${given[1]}"; then good=yes; else good=no; fi
    note "./dobutsu ${words#*|} at a terminal: status $status, $(head -c 80 "$work/err")" "$good"
done

# Spoilt files: the one of lions alone empty, without its last byte, with a byte added, and with another byte at a place.
spoil() {
    head -c "$1" "$lions"
    printf '\xff'
    tail -c "+$(($1 + 2))" "$lions"
}
: >"$work/empty.db"
head -c 159 "$lions" >"$work/cut.db"
{ cat "$lions"; printf '\0'; } >"$work/longer.db"
{ spoil 20; printf '\0'; } >"$work/longer_20.db"
for place in 0 11 12 20 159; do
    spoil "$place" >"$work/at_$place.db"
done
for case in 'empty|E15 Truncated' 'cut|E15 Truncated' 'at_0|E16 Magic' 'at_11|E17 SetByte' 'at_12|E18 ClassCount' \
    'longer|E19 Trailing' 'longer_20|E19 Trailing' 'at_20|E20 Digest' 'at_159|E20 Digest'; do
    IFS='|' read -r name fault <<<"$case"
    expect 1 '' "dobutsu: $fault" check --db "$work/$name.db"
    for word in probe line; do expect 1 '' "dobutsu: $fault" "$word" --db "$work/$name.db" "$long"; done
    # behind the position's fault, and before that of its set
    expect 1 '' 'dobutsu: E6 FarLion' line --db "$work/$name.db" 'L../.../.../..l - -'
    expect 1 '' "dobutsu: $fault" line --db "$work/$name.db" '..l/.../.../L.. C -'
done

# Files of lions alone in which one position has a wrong value, and the digest that then belongs there, here of the second format: what they say, or the class
# whose value doesn't follow.
base="$lions_2"
wrongly() {
    local text="$1" code="$2" told="$3"
    shift 3
    python3 tests/certify_wrong_table.py "$base" "$work/wrong.db" "$text" "$code"
    if [ "${told#E21}" = "$told" ]; then expect 0 "$told" '' "$@" --db "$work/wrong.db"; else expect 1 '' "dobutsu: $told" "$@" --db "$work/wrong.db"; fi
}
# a line goes by what the file says, wrong or not; but a lion that can be caught is
wrongly "$long" 0 draw line "$long"
wrongly "$long" 1 end line "$long"
caught='.../.l./.L./... - -'
for code in 0 1 4 5; do wrongly "$caught" "$code" Lb2xb3 line "$caught"; done
# no move is left that a win or a loss could be forced by, where the enemy has tried or no successor has it
tried='.../L../.../..l - -'
for code in 2 3; do wrongly "$tried" "$code" 'E21 Inconsistent class 38' line "$tried"; done
wrongly "$long" 8 'E21 Inconsistent class 17' line "$long"
wrongly "$long" 8 'win 7' probe "$long"
# class 9 wins by a move to a loss, and not to a draw or to the greatest loss, after which no win can come
for code in 0 65535; do wrongly '.../.l./.../.L. - -' "$code" 'E21 Inconsistent class 9' check; done
# a win in 7 for one in 5, a loss in 2 where the enemy has tried, a draw where the lion can be caught
wrongly "$long" 8 'E21 Inconsistent class 17' check
wrongly '.../L../.../l.. - -' 3 'E21 Inconsistent class 36' check
wrongly '.../.../.../L.l - -' 0 'E21 Inconsistent class 1' check
# and of the first format
base="$lions"
wrongly "$long" 8 'E21 Inconsistent class 17' check
wrongly "$long" 8 'win 7' probe "$long"
# where a move leads to the greatest loss that a record can say, its own value is a ply more
wrongly '.../.../..l/L.. - -' 65535 'La2-a3 win 65535' best "$position"
wrongly '..l/.../L../... - -' 65535 'loss 65534' probe "$position"
# of a line best play may not go on, which is answered for that line alone
printf '%s\n' "$long" "$position" >"$work/lines"
python3 tests/certify_wrong_table.py "$lions" "$work/wrong.db" "$long" 8
expect 1 $'E21 Inconsistent class 17\nLa2-a3 lc4-b4 La3xb4' '' line --each --db "$work/wrong.db" <"$work/lines"

# `look`, `moves`, `best`, `show` and `line --records` read the header and the records that they need: they say what is wrong with these, and nothing else.
head -c 54 "$lions" >"$work/short.db"
for case in 'empty|E15 Truncated' 'short|E15 Truncated' 'at_0|E16 Magic' 'at_11|E17 SetByte' 'at_12|E18 ClassCount'; do
    IFS='|' read -r name fault <<<"$case"
    for word in look show 'line --records'; do expect 1 '' "dobutsu: $fault" $word --db "$work/$name.db" "$long"; done
    if [ "$name" != short ]; then for word in moves best; do expect 1 '' "dobutsu: $fault" "$word" --db "$work/$name.db" "$long"; done; fi
done
for name in cut longer longer_20 at_20 at_159; do
    expect 0 'win 5' '' look --db "$work/$name.db" "$long"
done
for name in cut longer at_159; do
    expect 0 'Lb1-b2 lb4-c4 Lb2-a3 lc4-b4 La3xb4' '' line --records --db "$work/$name.db" "$long"
    expect 0 'Lb1-b2 win 5' '' best --db "$work/$name.db" "$long"
    expect 0 '~Lb1-b2 win 5' '' moves --db "$work/$name.db" "$long"
done

# The second format: spoilt in its byte of the profile, with another count, and short of byte 20. Byte 12 of a file of the first format is
# no profile's.
{ head -c 12 "$lions_2"; printf '\2'; tail -c +14 "$lions_2"; } >"$work/profile.db"
{ head -c 12 "$lions_2"; printf '\1'; tail -c +14 "$lions_2"; } >"$work/other_profile.db"
{ head -c 13 "$lions_2"; printf '\377'; tail -c +15 "$lions_2"; } >"$work/count.db"
{ head -c 12 "$lions_2"; printf '\2'; tail -c +14 "$lions_2" | head -c 7; } >"$work/head.db"
{ head -c 7 "$lions"; printf '2'; tail -c +9 "$lions"; } >"$work/turned.db"
{ head -c 8 "$lions_2"; printf '\1'; tail -c +10 "$lions_2"; } >"$work/set.db"
{ head -c 8 "$lions_2"; printf '\2\2\2'; tail -c +12 "$lions_2"; } >"$work/whole_game.db"
{ head -c 8 "$lions"; printf '\1'; tail -c +10 "$lions"; } >"$work/set_1.db"
{ head -c 8 "$lions"; printf '\2\2\2'; tail -c +12 "$lions"; } >"$work/whole_game_1.db"
for case in 'set|E18 ClassCount' 'whole_game|E18 ClassCount' 'profile|E27 ProfileByte' 'turned|E27 ProfileByte' 'count|E18 ClassCount' \
    'set_1|E18 ClassCount' 'whole_game_1|E18 ClassCount' 'head|E15 Truncated' 'other_profile|E20 Digest'; do
    IFS='|' read -r name fault <<<"$case"
    expect 1 '' "dobutsu: $fault" check --db "$work/$name.db"
    if [ "$name" != other_profile ]; then expect 1 '' "dobutsu: $fault" look --db "$work/$name.db" "$long"; fi
done
expect 0 'win 5' '' look --db "$work/other_profile.db" "$long"
expect 0 'consistent' '' check --db "$lions_2"
