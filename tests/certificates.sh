# Certificates: what is still accepted of a file with a byte changed is still true.
# Takes minutes.

# Small certificates made in pure Python from tables of the program: of each kind of claim the largest one, by both rules. Then each byte of each is changed.
mkdir "$work/small"
made=yes
for ruled_set in {A,B}_100; do
    "$program" build --rules "${ruled_set%_*}" --set "${ruled_set#*_}" --nodes 2 --out "$work/$ruled_set.db" >"$work/out" 2>&1 || made=no
    mkdir "$work/$ruled_set"
    python3 tests/certificates_make.py "$work/$ruled_set" 300 97 "$work/$ruled_set.db" >"$work/claims" 2>&1 || made=no
    # of each kind of claim the largest one
    for kind in draw win loss 'win within' 'loss within'; do
        python3 tests/certificates_pick.py "$work/$ruled_set" "$kind" "$work/small" || made=no
    done
done
[ "$(find "$work/small" -name '*.cert' | wc -l)" = 10 ] || made=no
note "certificates made in pure Python, ten small ones" "$made"
good=no
if python3 tests/certificates_judge.py "$work/small" "$program" >"$work/out" 2>&1; then good=yes; fi
note "each byte of them changed in turn: what is accepted is true: $(tail -1 "$work/out")" "$good"

# The page's own reader and checker find in spoilt ones what the reader in Python does.
made=yes
python3 tests/spoilt.py "$work/small" >"$work/spoilt" 2>"$work/out" || made=no
note "spoilt certificates with their faults" "$made"
if command -v node >/dev/null; then
    good=no
    if node page/test/certificate_faults.js <"$work/spoilt" >"$work/out" 2>&1; then good=yes; fi
    note "the page finds the faults that Python finds: $(tail -1 "$work/out")" "$good"
fi

# The first of them counts as many entries as its set has classes, 588,021,930, which no bytes pay for: no room is made for them.
python3 -c 'import sys; sys.stdout.buffer.write(bytes.fromhex(sys.stdin.readline().split()[0]))' <"$work/spoilt" >"$work/claims.cert"
good=no
if [ "$(ulimit -v 300000; "$program" verify --cert "$work/claims.cert" 2>&1)" = 'dobutsu: E15 Truncated' ]; then good=yes; fi
note "a count claims no memory in the program" "$good"
# Of what doesn't begin as a certificate no more is read than shows that, however long it is.
truncate -s 1176043913 "$work/zeros"
good=yes
for name in "$work/zeros" /dev/zero; do
    for words in verify "reply:$position"; do
        IFS=: read -r word text <<<"$words"
        [ "$(ulimit -v 300000; timeout 20 "$program" "$word" --cert "$name" ${text:+"$text"} 2>&1)" = 'dobutsu: E16 Magic' ] || good=no
    done
done
note 'verify and reply read no further than a title that is none' "$good"
rm -f "$work/zeros"
# Nor is more read of one that goes on than its header says that it can have.
good=no
if [ "$(cat testdata/one_chick.cert /dev/zero 2>"$work/err" |
    (ulimit -v 300000; timeout 20 "$program" verify --cert /dev/stdin 2>&1))" = 'dobutsu: E19 Trailing' ]; then good=yes; fi
note 'verify reads no further than a certificate can be long' "$good"
good=no
open='import sys; sys.path.insert(0, "python"); from dobutsu import pure; pure.open_certificate(sys.argv[1])'
(ulimit -v 300000; python3 -c "$open" "$work/claims.cert") >"$work/out" 2>&1
if grep -q 'E15 Truncated$' "$work/out"; then good=yes; fi
note "a count claims no memory in Python" "$good"

# The winner's book behind each first move of the starting layout: pure Python checks the certificate, and in games it has a reply each time, that of the
# program, and wins.
good=no
check='import sys; sys.path.insert(0, "python"); from dobutsu import Certificate; it = Certificate(sys.argv[1], ""); it.verify(); print(it)'
if [ "$(python3 -c "$check" testdata/222_A_first_moves.cert 2>&1)" = 'gle/.c./.C./ELG - - loss within 78' ]; then good=yes; fi
note 'pure Python verifies testdata/222_A_first_moves.cert' "$good"
good=no
starts=('g.e/.cl/.C./ELG - -' 'g.e/lc./.C./ELG - -' '.le/gc./.C./ELG - -' 'gle/.../.c./ELG - c')
if python3 tests/certificates_book.py "$program" testdata/222_A_first_moves.cert 40 "${starts[@]}" >"$work/out" 2>&1 &&
    [ "$(sed 's/.* within \([0-9]*\) .*/\1/' "$work/out" | xargs)" = '77 77 77 75' ]; then good=yes; fi
note "the book behind each first move: $(tail -1 "$work/out")" "$good"
