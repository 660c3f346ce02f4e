# The pages: what they name exists, they keep their lengths, and what a script makes is as it makes it.

good=no
if tools/check-pages >"$work/out"; then good=yes; fi
note "tools/check-pages: $(head -1 "$work/out")" "$good"
good=no
if python3 tests/docs_planted.py >"$work/out" 2>&1; then good=yes; fi
note "what tools/check-pages sees: $(tail -1 "$work/out")" "$good"
# The numbers of docs/CLASSES.md are those of the reader in Python.
good=no
if python3 tests/docs_classes.py >"$work/out" 2>&1; then good=yes; fi
note "the class numbers of docs/CLASSES.md: $(tail -1 "$work/out")" "$good"
good=no
if tools/planted --check >"$work/out"; then good=yes; fi
note "tools/planted --check: $(head -1 "$work/out")" "$good"
# The toolchain is used as it is: no tool locks for it, nor writes by itself what it believes proved.
good=no
if ! grep -rIn --exclude-dir=__pycache__ 'floc[k]\|stam[p]' tools test tests .ci dobutsu >"$work/out"; then good=yes; fi
note "tools that lock or write for rt: $(head -1 "$work/out")" "$good"
# Nothing public is without a caller, and no lemma without a citation.
good=no
if tools/unused >"$work/out"; then good=yes; fi
note "tools/unused: $(head -1 "$work/out")" "$good"
# Each source is as `rt fmt` writes it, which the gate asks for too.
mkdir "$work/crates"
for crate in crates/*/; do
    copy="$work/$crate"
    mkdir "$copy"
    for part in src specs proofs; do if [ -d "$crate$part" ]; then cp -r "$crate$part" "$copy"; fi; done
    (cd "$copy" && rt fmt) | sed "s|^|$crate |"
done >"$work/out" 2>&1
good=no
if [ ! -s "$work/out" ]; then good=yes; fi
note "rt fmt: $(head -1 "$work/out")" "$good"
good=no
if tools/results-page --check 2>"$work/out"; then good=yes; fi
note "tools/results-page --check: $(head -1 "$work/out")" "$good"
# The longest wins that a game can reach are reached by the moves beside them.
good=no
if python3 tests/docs_ways.py >"$work/out" 2>&1; then good=yes; fi
note "the ways of docs/results_longest.csv: $(tail -1 "$work/out")" "$good"
# The version is one wherever it stands.
good=no
if tools/release --check >"$work/out" 2>&1; then good=yes; fi
note "tools/release --check: $(tail -1 "$work/out")" "$good"
# A crate's calls with their docs and the clauses of their contracts.
good=no
if tools/calls dob_moves apply >"$work/out" && grep -q 'HasOutcome' "$work/out" && grep -q 'The position that a move leads to' "$work/out"; then good=yes; fi
note "tools/calls dob_moves apply: $(head -1 "$work/out")" "$good"
good=no
if tools/calls >"$work/out" && grep -q 'finished_right' "$work/out" && grep -q 'AreMoves' "$work/out"; then good=yes; fi
note "tools/calls: $(head -1 "$work/out")" "$good"
good=no
if tools/planted --list dob_world >"$work/out" && grep -q 'last batch first' "$work/out" && grep -q -e ' -- ' "$work/out"; then good=yes; fi
note "tools/planted --list dob_world: $(head -1 "$work/out")" "$good"
# tools/fresh looks at the sources of what a file is made of, and at no other crate's.
mkdir -p "$work/tree/tools" "$work/tree"/crates/{low,high,other}/src "$work/tree/crates/high/out"
cp tools/fresh "$work/tree/tools"
printf '%s\n' '# crates' 'low:' 'high staticlib: low' 'other: low' >"$work/tree/crates.txt"
touch -d '2 hours ago' "$work/tree"/{crates.txt,HANDLES,crates/{low,high}/src/lib.rt}
echo made >"$work/tree/crates/high/out/high.o"
touch -d '1 hour ago' "$work/tree/crates/high/out/high.o"
touch "$work/tree/crates/other/src/lib.rt" "$work/tree/crates/high/out/statement.rt"
good=no
if "$work/tree/tools/fresh" "$work/tree/crates/high/out/high.o"; then good=yes; fi
note "tools/fresh where another crate is newer" "$good"
touch "$work/tree/crates/low/src/lib.rt"
good=no
if ! "$work/tree/tools/fresh" "$work/tree/crates/high/out/high.o"; then good=yes; fi
note "tools/fresh where a crate below is newer" "$good"
