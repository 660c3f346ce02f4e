# Zugzwangs: how many pairs of classes there are in which whoever has to move would rather not, and the deepest. The values are from an independent search.

# files of testdata
expect 0 'lost by both 0
loss and draw 2' '' zugzwangs --db "$lions"
expect 0 'lost by both 0
loss and draw 2
.../l../.../L.. - -  loss 6  draw
.../.l./.../.L. - -  loss 4  draw' '' zugzwangs --db "$lions" --list 18446744073709551615
expect 0 'lost by both 0
loss and draw 3
.../l../..C/L.. - -  loss 8  draw
.../.l./C../.L. - -  loss 6  draw' '' zugzwangs --list=2 --db="$chick"
expect 0 'lost by both 0
loss and draw 3' '' zugzwangs --db "$chick" --list 0

# an elephant, of which whoever has to move loses once; and three pieces
built="$work/built.db"
expect 0 '~^classes 1116$' '' build --set 010 --out "$built"
expect 0 'lost by both 1
loss and draw 11
deepest .../.l./.../LE. - -  loss 4  loss 8' '' zugzwangs --db "$built"
expect 0 'lost by both 1
loss and draw 11
deepest .../.l./.../LE. - -  loss 4  loss 8
.../l../.../L.E - -  draw  loss 10
.../l.E/.../L.. - -  draw  loss 14
e../l../.../L.. - -  loss 6  draw
..e/l../.../L.. - -  loss 6  draw
.../.l./.../LE. - -  loss 4  loss 8' '' zugzwangs --db "$built" --list 5
expect 0 'loss 4' '' probe --db "$built" '.../.l./.../LE. - -'
expect 0 'loss 8' '' probe --db "$built" '.el/.../.L./... - -'
expect 0 '~^classes 765360$' '' build --set 111 --out "$built"
expect 0 'lost by both 81
loss and draw 207
deepest .../..l/E.c/L.g - -  loss 26  loss 24' '' zugzwangs --db "$built"
expect 0 '~^classes 11917800$' '' build --set 211 --out "$built"
expect 0 'lost by both 753
loss and draw 1483
deepest .g./..l/.C./LH. - e  loss 48  loss 44' '' zugzwangs --db "$built"

# files that are none
fails_at "$work/none.db" "$gone" zugzwangs --db "$work/none.db"
expect 1 '' 'dobutsu: E15 Truncated' zugzwangs --db /dev/null --list 1
