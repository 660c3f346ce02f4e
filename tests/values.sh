# The subcommands that need no file: value and count, by both rules.

# value
expect 0 'win 3' '' value "$position"
expect 0 'win 3' '' value -- "$position"
expect 0 'win 3' '' value "$position" --
expect 0 'win 1' '' value '.../.l./.L./... - -'
expect 0 'win 1' '' value '..l/L../.../... - -'
expect 0 'loss 0' '' value '.../L../.../..l - -'
expect 0 'win 1' '' value '.../.../.L./l.. - -'
expect 0 'loss 2' '' value '.../.../..l/L.. - -'
expect 0 'win 5' '' value '.l./.../.../.L. - -'
expect 0 'loss 4' '' value '.../.l./.../.L. - -'
expect 0 'draw' '' value '.l./.../.L./... - -'
expect 0 'win 1' '' value '.l./.C./.../L.. - -'
expect 0 'loss 0' '' value '.../.../.../L.l - g'
expect 1 '' 'dobutsu: E1 Shape' value ''
expect 1 '' 'dobutsu: E1 Shape' value -
expect 1 '' 'dobutsu: E1 Shape' value -- -x
expect 1 '' 'dobutsu: E1 Shape' value a --
expect 1 '' 'dobutsu: E2 Letter' value '..l/.../.../L.x - -'
expect 1 '' 'dobutsu: E3 Hand' value '..l/.../.../L.. GC -'
expect 1 '' 'dobutsu: E3 Hand' value '..l/.../.../L.. CC EG'
expect 1 '' 'dobutsu: E4 Lions' value '.../.../.../L.. - -'
expect 1 '' 'dobutsu: E5 Count' value '..l/.../.../L.. CCC -'
expect 1 '' 'dobutsu: E6 FarLion' value 'L../.../.../..l - -'
# no line ends within a text, and of a letter so often in a hand 16 bits would see fewer
expect 1 '' 'dobutsu: E1 Shape' value $'gle/.c./.C./ELG\n- -'
expect 1 '' 'dobutsu: E2 Letter' value $'\n.l/.../.../L.. - -'
expect 1 '' 'dobutsu: E3 Hand' value $'..l/.../.../L.. - -\n'
expect 1 '' 'dobutsu: E3 Hand' value $'..l/.../.../L.. - -\r\n'
expect 1 '' 'dobutsu: E3 Hand' value $'..l/.../.../L.. CC\n -'
for count in 65536 65537; do
    expect 1 '' 'dobutsu: E5 Count' value "..l/.../.../L.. $(printf "%${count}s" | tr ' ' C) -"
done

# what a side can give and still not lose: the starting layout with at most three pieces beside the lions, values from outside
expect 0 'win 5' '' value '.l./.../.C./ELG - -'
expect 0 'win 19' '' value 'gl./.../.../ELG - -'
expect 0 'win 23' '' value '.le/.../.../ELG - -'
expect 0 'win 13' '' value '.l./.c./.../ELG - -'
expect 0 'win 5' '' value '.l./.../.../ELG - -'
expect 0 'draw' '' value 'gl./.../.C./.LG - -'
expect 0 'win 7' '' value '.le/.../.C./.LG - -'
expect 0 'win 15' '' value '.l./.c./.C./.LG - -'
expect 0 'win 5' '' value '.l./.../.C./.LG - -'
expect 0 'loss 32' '' value 'gle/.../.../.LG - -'
expect 0 'draw' '' value 'gl./.c./.../.LG - -'
expect 0 'draw' '' value 'gl./.../.../.LG - -'
expect 0 'win 17' '' value '.le/.c./.../.LG - -'
expect 0 'draw' '' value '.le/.../.../.LG - -'
expect 0 'draw' '' value '.l./.c./.../.LG - -'
expect 0 'win 5' '' value '.l./.../.../.LG - -'
expect 0 'loss 28' '' value 'gl./.../.C./EL. - -'
expect 0 'win 7' '' value '.le/.../.C./EL. - -'
expect 0 'win 11' '' value '.l./.c./.C./EL. - -'
expect 0 'win 5' '' value '.l./.../.C./EL. - -'
expect 0 'loss 24' '' value 'gle/.../.../EL. - -'
expect 0 'loss 16' '' value 'gl./.c./.../EL. - -'
expect 0 'draw' '' value 'gl./.../.../EL. - -'
expect 0 'draw' '' value '.le/.c./.../EL. - -'
expect 0 'draw' '' value '.le/.../.../EL. - -'
expect 0 'win 21' '' value '.l./.c./.../EL. - -'
expect 0 'win 5' '' value '.l./.../.../EL. - -'
expect 0 'loss 14' '' value 'gle/.../.C./.L. - -'
expect 0 'loss 16' '' value 'gl./.c./.C./.L. - -'
expect 0 'draw' '' value 'gl./.../.C./.L. - -'
expect 0 'loss 16' '' value '.le/.c./.C./.L. - -'
expect 0 'win 7' '' value '.le/.../.C./.L. - -'
expect 0 'win 15' '' value '.l./.c./.C./.L. - -'
expect 0 'win 5' '' value '.l./.../.C./.L. - -'
expect 0 'loss 8' '' value 'gle/.c./.../.L. - -'
expect 0 'loss 10' '' value 'gle/.../.../.L. - -'
expect 0 'loss 8' '' value 'gl./.c./.../.L. - -'
expect 0 'loss 12' '' value 'gl./.../.../.L. - -'
expect 0 'draw' '' value '.le/.c./.../.L. - -'
expect 0 'draw' '' value '.le/.../.../.L. - -'
expect 0 'loss 10' '' value '.l./.c./.../.L. - -'
expect 0 'win 5' '' value '.l./.../.../.L. - -'

# count
expect 0 $'positions 99\nclasses 54' '' count --set 000
expect 0 $'positions 2178\nclasses 1116' '' count --set 001
expect 0 $'positions 2178\nclasses 1116' '' count --set 010
expect 0 $'positions 4158\nclasses 2124' '' count --set=100
expect 0 $'positions 79497\nclasses 39978' '' count --set 200
expect 0 $'positions 1529352\nclasses 765360' '' count --set 111
expect 0 $'positions 83556\nclasses 41976' '' count --set 110
expect 0 $'positions 23828508\nclasses 11917800' '' count --set 211
expect 0 $'positions 1175944473\nclasses 588021930' '' count --set 222
for set in '' 3 10 1000 300 '1 0' - '１00'; do
    expect 1 '' 'dobutsu: E25 SetText' count --set "$set"
done
expect 1 '' 'dobutsu: E25 SetText' count --set=
expect 1 '' 'dobutsu: E25 SetText' count --set=-x=y
expect 1 '' 'dobutsu: E25 SetText' count --set=--set --
expect 0 $'positions 99\nclasses 54' '' count --set 000 --
# all 27 sets by the rules of both profiles; the numbers are from outside
while read -r profile set positions classes; do
    expect 0 "positions $positions"$'\n'"classes $classes" '' count --set "$set" --rules "$profile"
done <testdata/counts.txt

# rules B: a chick on its own far row is no position, and the fault comes behind all others of the text
expect 1 '' 'dobutsu: E26 FarChick' value --rules B "$far_chick"
expect 1 '' 'dobutsu: E26 FarChick' value '..l/.../.../L.c - -' --rules=B
expect 1 '' 'dobutsu: E6 FarLion' value --rules B 'C.L/.../.../..l - -'
expect 0 'draw' '' value "$far_chick"
expect 0 'draw' '' value --rules A "$far_chick"
expect 0 'win 7' '' value '..l/.../.../L.c - -'
expect 0 'win 3' '' value --rules B "$position"

# reach: classes, open ones and distances from an independent search
expect 0 'classes 39
open 21
depth 6
0 1
1 5
2 10
3 12
4 4
5 3
6 4' '' reach --levels "$position"
expect 0 'classes 443086
open 201898
depth 26' '' reach 'gl./.c./.../E.L - -'
expect 0 'classes 385001
open 174386
depth 26' '' reach --rules B 'gl./.c./.../E.L - -'
# with more classes at a distance than are searched side by side
expect 0 'classes 6148621
open 2641072
depth 36' '' reach 'gle/.c./.C./..L - -'
expect 0 'classes 1
open 0
depth 0
0 1' '' reach '.../L../.../..l - -' --levels
expect 0 'classes 1
open 0
depth 0' '' reach '.../.l./.L./... - -'
expect 0 'classes 39
open 21
depth 6' 'ply 0: 1 classes
ply 1: 5 classes
ply 2: 10 classes
ply 3: 12 classes
ply 4: 4 classes
ply 5: 3 classes
ply 6: 4 classes' reach --progress "$position"
expect 1 '' 'dobutsu: E1 Shape' reach ''
expect 1 '' 'dobutsu: E26 FarChick' reach --rules B 'C.l/.../.../L.. - -'
