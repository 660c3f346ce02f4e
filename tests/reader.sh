# The reader in Python, written from docs/FORMAT.md and docs/RULES.md alone, and the program: they say the same of thousands of positions.
# Takes minutes.

# By files of both formats, each position of lions alone, and 500 of one chick: `probe`, `look` and that reader give the same value,
# and that of the row, where it has one (these values are from outside). The built program is run itself,
# so that twice 599 runs don't look for newer sources.
expect 0 'consistent' '' check --db "$chick"
for name in lions_alone one_chick lions_alone_2 one_chick_2; do
    mapfile -t rows <"testdata/${name%_2}.txt"
    texts=("${rows[@]% = *}")
    same=yes
    for row in "${rows[@]}"; do
        printed="$("$program" probe --db "testdata/$name.db" "${row% = *}" 2>&1)"
        printf '%s\n' "$printed"
        [ "$("$program" look --db "testdata/$name.db" "${row% = *}" 2>&1)" = "$printed" ] || echo "$row" >>"$work/wrong"
        case "$row" in *' = '*) [ "$printed" = "${row#* = }" ] || echo "$row" >>"$work/wrong" ;; esac
    done >"$work/probed"
    [ ! -e "$work/wrong" ] || same=no
    python3 tools/read_db.py "testdata/$name.db" "${texts[@]}" >"$work/read" 2>&1
    cmp -s "$work/probed" "$work/read" || same=no
    note "probe, look and tools/read_db.py on ${#rows[@]} positions of testdata/$name.db" "$same"
    # and `--each` answers the same of all of them, of which some are refused or none
    status=0
    printf '%s\n' "${texts[@]}" | "$program" probe --db "testdata/$name.db" --each >"$work/each" 2>&1 || status=$?
    good=no
    wanted="$(grep -q '^E' "$work/each" && echo 1 || echo 0)"
    if sed 's/^dobutsu: //' "$work/probed" | cmp -s - "$work/each" && [ "$status" = "$wanted" ]; then good=yes; fi
    note "probe --each on ${#rows[@]} positions of testdata/$name.db: status $status" "$good"
done

# The reader's module on 200 classes of each of five sets in both profiles, as they are spread over the file: `probe` and `moves` answer the same of each,
# `stats` of all, and the best of a position's moves has the position's own value. So does `puzzles` of the first ten of some lengths.
same=yes
for ruled_set in {A,B}_{000,100,010,001,200}; do
    set="${ruled_set#*_}"
    "$program" build --set "$set" --rules "${ruled_set%_*}" --nodes 3 --out "$work/$set.db" >"$work/out" 2>&1 || same=no
    python3 tests/reader_ask.py "$work/$set.db" "$work/counts" >"$work/asked" || same=no
    "$program" stats --db "$work/$set.db" >"$work/out" 2>&1 || same=no
    for plies in 3 5 7; do
        "$program" puzzles --db "$work/$set.db" --plies "$plies" --count 10 >>"$work/out" 2>&1 || same=no
    done
    cmp -s "$work/counts" "$work/out" || same=no
    while IFS= read -r row; do
        text="${row%% = *}"
        printed="$("$program" probe --db "$work/$set.db" "$text")"
        moved="$("$program" moves --db "$work/$set.db" "$text")"
        [ "$moved" = end ] || printed="$printed"$'\n'"$moved"
        [ "$text = ${printed//$'\n'/ = }" = "$row" ] || same=no
    done <"$work/asked"
    [ -s "$work/asked" ] || same=no
done
note "probe, moves, stats, puzzles and the module of tools/read_db.py on 200 classes of each of five sets in both profiles" "$same"
