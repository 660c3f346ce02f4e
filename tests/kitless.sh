# What answers where there is no kit: the scripts say so in a sentence, and the package installs from a clone.
#
# Without the kit it tests what needs none.

# Every command of this machine but the kit's, and a clean clone.
mkdir "$work/commands"
link_commands() { find -L "$1" -maxdepth 1 -type f -perm /111 ! -name rt -exec ln -sf -t "$work/commands" {} + 2>/dev/null; }
(IFS=: && for folder in $PATH; do link_commands "$folder"; done)
git clone --quiet --no-hardlinks "$top" "$work/clone" 2>"$work/err" || note "a clone: $(tail -1 "$work/err")" no

# Whether the words are refused for want of the kit, in a sentence and at once.
kitless() {
    local status=0 good=no
    (cd "$work/clone" && PATH="$work/commands" "$@") >"$work/out" 2>"$work/err" </dev/null || status=$?
    if [ "$status" = 69 ] && [ ! -s "$work/out" ] && [ "$(wc -l <"$work/err")" = 1 ] &&
        grep -q '^dobutsu: this needs the kit, whose command `rt` isn.t there; .' "$work/err"; then good=yes; fi
    note "$*, without the kit: status $status, $(head -c 200 "$work/out" "$work/err" | tr '\n' ' ')" "$good"
}
kitless ./dobutsu value "$position"
kitless ./dobutsu --help
kitless ./dobutsu --unproved value "$position"
kitless tools/prove dobutsu
kitless tools/prove dobutsu_c
kitless tools/page
kitless tools/page-module
kitless tools/page --with nowhere
kitless tools/library "$work"
kitless tools/release "$work"
kitless tools/release nowhere
kitless ./test
kitless ./test usage kitless

# README's page, and pure Python's answer, leave the clone as it was.
good=no
if (cd "$work/clone" && PATH="$work/commands" && python3 page/build.py --with testdata/222_A.cert - solved.html && PYTHONPATH=python python3 -c '
from dobutsu import Certificate, Position, Table
with Table("testdata/lions_alone_2.db") as table:
    assert str(table["..l/.../L../... - -"]) == "win 3"
assert Position("gle/.c./.C./ELG - -").moves() == ["Lb1-a2", "Lb1-c2", "Gc1-c2", "Cb2xb3"]') >"$work/out" 2>&1 &&
    [ -z "$(git -C "$work/clone" status --porcelain)" ]; then good=yes; fi
note "the page and Python's answers leave a clone clean: $(tail -1 "$work/out") $(git -C "$work/clone" status --porcelain | head -3)" "$good"

# The page's proved engine is the one of the clone's sources, which needs no kit to be seen.
if (cd "$work/clone" && PATH="$work/commands" tools/page-module --check) >"$work/out" 2>&1; then good=yes; else good=no; fi
note "tools/page-module --check: $(tail -1 "$work/out")" "$good"

# The programs of the pages that need no kit, as the pages have them.
says() {
    local good=no wanted="$1"
    shift
    if (cd "$work/clone" && PATH="$work/commands" python3 "$@") >"$work/out" 2>&1 && printf '%s\n' "$wanted" | cmp -s - "$work/out"; then good=yes; fi
    note "python3 $*: $(tail -1 "$work/out")" "$good"
}
says 'win 3
La2-a3 win 3
La2-b2 draw
La2-a1 loss 8
La2-b1 loss 6
La2-b3 loss 2
La2-a3 lc4-b4 La3xb4' examples/ask.py testdata/lions_alone_2.db '..l/.../L../... - -'
says "E1 Shape: $(PYTHONPATH=python python3 -c 'from dobutsu.faults import SENTENCES; print(SENTENCES[1])')" examples/ask.py testdata/lions_alone_2.db x
says '.../.l./.../L.. - -
.../l../.../.L. - -
l../.../L../... - -
.l./.../.L./... - -' examples/positions.py testdata/lions_alone_2.db draw
says '.c./l../.../.L. - - loss 8' examples/certificate.py testdata/one_chick.cert
says '2124 classes there and back, by both colours' examples/colours.py 100

# The package installs from the clone, with no network.
good=no
if python3 -m venv "$work/new" >"$work/out" 2>&1 &&
    "$work/new/bin/pip" install -q --no-index --no-cache-dir "$work/clone/python" >"$work/out" 2>&1 &&
    [ "$(cd "$work" && new/bin/python -c 'from dobutsu import Position; print(len(Position("gle/.c./.C./ELG - -").moves()))')" = 4 ]; then good=yes; fi
note "pip install ./python: $(tail -1 "$work/out")" "$good"
rm -rf "$work/clone" "$work/commands" "$work/new"
