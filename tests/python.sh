# The Python package: its examples, its two engines against the program, and its wheel in a new environment.
# Takes minutes.

make_release || note "the release of which the package is a part" no
good=no
if PYTHONPATH=python python3 tests/python_examples.py >"$work/out" 2>&1; then good=yes; fi
note "the examples in python/dobutsu: $(tail -1 "$work/out")" "$good"

# The package is typed as it says, for the least Python that it takes and for the one that is here.
if needs mypy; then
    good=no
    if mypy --strict --python-version 3.9 python/dobutsu >"$work/out" 2>&1 && mypy --strict python/dobutsu >"$work/out" 2>&1; then good=yes; fi
    note "mypy --strict python/dobutsu: $(tail -1 "$work/out")" "$good"
fi

# The texts of Fairy-Stockfish 11.1's variant `dobutsu`: after each move of games that it played by chance, the SFEN, and the move that led to it. Read and
# written they are the same, and the move leads there here too. What is no SFEN is refused.
good=no
if PYTHONPATH=python python3 tests/python_sfens.py testdata/sfens.txt >"$work/out" 2>&1; then good=yes; fi
note "the SFEN of Fairy-Stockfish's variant, both ways: $(tail -1 "$work/out")" "$good"

# The package draws the puzzles that the program prints, in the file's order and by some seeds.
good=yes
for seed in '' 0 1 2 40 18446744073709551615; do
    "$program" puzzles --db "$chick" --plies 3 --count 7 ${seed:+--random "$seed"} >"$work/printed"
    PYTHONPATH=python python3 tests/python_puzzles.py "$chick" $seed >"$work/drawn" && cmp -s "$work/printed" "$work/drawn" || good=no
done
note 'the package draws the puzzles that the program prints' "$good"

# Each engine gives the value, the moves and the line of each position, and what `stats` counts, as the program does.
same=yes
for ruled_set in A_000 B_100 A_101; do
    file="$work/$ruled_set.db"
    "$program" build --rules "${ruled_set%_*}" --set "${ruled_set#*_}" --nodes 3 --out "$file" >"$work/out" 2>&1 || same=no
    python3 tests/python_positions.py "$file" >"$work/asked" || same=no
    while IFS= read -r text; do
        if printed="$("$program" probe --db "$file" "$text" 2>/dev/null)"; then
            printf '%s\n' "$printed"
            "$program" moves --db "$file" "$text" | sed 's/^end$//'
            "$program" line --db "$file" "$text" | sed 's/^\(end\|draw\)$//'
        else
            "$program" probe --db "$file" "$text" 2>&1 | sed 's/^dobutsu: \(E[0-9]*\) .*/\1/'
        fi
    done <"$work/asked" >"$work/printed"
    "$program" stats --db "$file" | grep -E '^(win|loss|draw) [0-9]+$|^longest' >>"$work/printed"
    for engine in pure "$release/libdobutsu.so"; do
        PYTHONPATH=python python3 tests/python_ask.py "$engine" "$file" <"$work/asked" >"$work/said" 2>&1
        [ -s "$work/said" ] && cmp -s "$work/printed" "$work/said" || same=no
    done
done
note "the package answers what the program does, by the library and without it: $(tail -1 "$work/said")" "$same"

# What a program may do with values, tables and positions, by each engine: the same by both.
same=yes
mkdir "$work/folder"
cp testdata/lions_alone_2.db "$work/folder/000.db"
cp testdata/one_chick_2.db "$work/folder/100.db"
for engine in pure "$release/libdobutsu.so"; do
    PYTHONPATH=python timeout 100 python3 tests/python_used.py "$engine" "$work/whole.db" "$work/folder" >"$work/said" 2>&1 || same=no
    [ "$(cat "$work/said")" = used ] || same=no
done
rm -f "$work/whole.db"
note "values, tables and positions as a program uses them, by each engine: $(tail -1 "$work/said")" "$same"

# The position of each class in the order of the file, with its value, and the next position of each of its moves.
same=yes
for name in lions_alone_2 one_chick_2; do
    PYTHONPATH=python python3 tests/python_walk.py "testdata/$name.db" >"$work/said" 2>&1 || same=no
    sed 's/ = .*//' "$work/said" >"$work/asked"
    "$program" probe --db "testdata/$name.db" --each <"$work/asked" | paste -d= "$work/asked" - | sed 's/=/ = /' >"$work/printed"
    [ -s "$work/said" ] && cmp -s "$work/printed" "$work/said" || same=no
    [ "$(wc -l <"$work/said")" = "$(sed -n 's/^classes //p' <("$program" stats --db "testdata/$name.db"))" ] || same=no
done
note "the package lists all positions as probe has them: $(tail -1 "$work/said")" "$same"

# The wheel of the archive, in an environment where nothing else is, with no network.
same=yes
python3 -m venv "$work/new" >"$work/out" 2>&1 || same=no
"$work/new/bin/pip" install -q --no-index --no-cache-dir "$release"/python/dobutsu-*.whl >"$work/out" 2>&1 || same=no
printed="$(cd "$work" && env -i new/bin/python -c '
import sys
from dobutsu import Table
table = Table(sys.argv[1])
print(table.engine, table[sys.argv[2]])' "$top/testdata/lions_alone_2.db" "$position" 2>&1)"
[ "$printed" = 'libdobutsu 0.1.0 win 3' ] || same=no
rm -rf "$work/new"
note "the wheel, installed with no network: $printed" "$same"
