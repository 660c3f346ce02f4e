"""What a program may do with values, tables and positions: python_used.py pure|LIBRARY FILE FOLDER

FILE is made, of the whole game and all draws; FOLDER has the files of `000` and `100`.
"""
import copy
import multiprocessing
import os
import pathlib
import pickle
import shutil
import tempfile
import sys
import time
import xml.etree.ElementTree
from dobutsu import Certificate, Fault, IllegalMove, MissingTable, Move, Position, Table, Tables, Value, after_move

def raises(kind, call, *words):
    try:
        answer = call(*words)
    except Exception as error:
        assert type(error) is kind, (kind, call, words, type(error), error)
        return str(error)
    raise AssertionError((kind, call, words, answer))

def asked(text):
    return table[text], table.moves(text)

library = None if sys.argv[1] == "pure" else sys.argv[1]
table = Table("testdata/lions_alone_2.db", library)
text, far, other = "..l/.../L../... - -", "C.l/.../.../L.. - -", "..l/.../L../... C -"

# values and moves go to other processes and back
for each in (Value("win", 3), Value("draw"), Value("loss"), Move("La2-a3", Value("win", 3)), Position(text), Fault("E7 OtherSet")):
    for again in (copy.copy(each), copy.deepcopy(each), pickle.loads(pickle.dumps(each))):
        assert type(again) is type(each) and str(again) == str(each) and (again == each or isinstance(each, Fault)), each
assert len({Value("win", 3), Value.read("win 3"), Value("loss", 3)}) == 2
with multiprocessing.get_context("fork").Pool(2) as pool:
    assert pool.map(asked, [text] * 5) == [(Value("win", 3), table.moves(text))] * 5
    assert "E7" in raises(Fault, pool.map, asked, [other])

# positions by their numbers
assert len(table) == len(list(table)) == len(list(table.positions())) == 54 and list(table.positions(54)) == list(table.positions(5, 3)) == []
assert list(table.positions(2, 4)) == list(table.positions())[2:4]
for numbers in (-3, 2), (0, -1), (55,), (0, 55), (-1, None):
    raises(IndexError, table.positions, *numbers)

# many positions by one call, whatever they are
many = [text, Position(text), other, far, "", "x", "\ud800", "..l/.../L../... - \udc80", "\0", text]
for some in (many, [each for each in many if str(each).isascii()], list(table), [text], []):
    answers = table.probe_many(iter(some))
    assert len(answers) == len(some)
    for each, answer in zip(some, answers):
        if each in table:
            assert answer == table[each], each
        else:
            assert type(answer) is Fault and str(answer) == raises(Fault, table.__getitem__, each), each
raises(TypeError, table.probe_many, [text, 3])

# what is in a table
assert text in table and Position(text) in table and other not in table and "" not in table and 3 not in table and None not in table
assert all(each in table for each in table) and table.get(text) == table[Position(text)] == Value("win", 3)
assert table.get(other) is None and table.get(other, 7) == 7
raises(TypeError, table.__getitem__, 3)
raises(TypeError, table.moves, b"..l/.../L../... - -")

for bad in None, 5, b"..l/.../L../... - -", [text]:
    assert raises(TypeError, Position, bad) == f"no text of a position: {bad!r}"

# texts of any letters
for bad in ("\ud800", "..l/.../L../... - \udc80", "\udcff" * 19, "\xe9.l/.../L../... - -", "\0", "\N{LION FACE}"):
    for call in (table.__getitem__, table.moves, table.line):
        assert raises(Fault, call, bad) == "E1 Shape", bad

# moves made
assert after_move("A", text, "La2-a3") == Position(text).after("La2-a3").text == ".../.../..l/L.. - -"
for move in ("La2-a4", "la2-a3", "C*a1", "", "La2xa3", "La2-a3+"):
    raises(IllegalMove, after_move, "A", text, move)
for rules in ("C", "", "AB", "a"):
    raises(ValueError, after_move, rules, text, "La2-a3")
assert raises(Fault, after_move, "B", far, "La1-a2") == "E26 FarChick" and after_move("A", far, "La1-a2")
assert raises(Fault, after_move, "A", "x", "La2-a3") == "E1 Shape"
assert after_move("A", ".../.l./.L./... - -", "Lb2xb3") is None
raises(IllegalMove, after_move, "A", ".../.l./.L./... - -", "Lb2-b1")
raises(IllegalMove, after_move, "A", ".L./.../.../.l. - -".swapcase(), "Lb4-b3")

# a closed table
walk = table.positions()
next(walk)
table.close()
table.close()
calls = [(table.__getitem__, text), (table.get, text), (table.__contains__, text), (table.moves, text), (table.line, text)]
calls += [(table.positions,), (table.stats,), (table.probe_many, [])]
for call, *words in [*calls, (len, table), (iter, table), (next, walk), (lambda: table.set,), (lambda: table.rules,)]:
    raises(ValueError, call, *words)
with Table("testdata/one_chick_2.db", library) as inner:
    inner.close()

# a file of the whole game, all of it draws, opens at once by the library
with open(sys.argv[2], "wb") as file:
    file.write(b"DOBUTSU2" + bytes((2, 2, 2, 2, 0)) + (588021930).to_bytes(8, "little"))
    file.truncate(21 + 2 * 588021930 + 32)
spent = []
for _ in range(5):
    begun = time.process_time()
    with Table(sys.argv[2], library) as whole:
        spent.append(time.process_time() - begun)
        assert whole["gle/.c./.C./ELG - -"] == Value("draw") and len(whole) == 588021930
assert library is None or min(spent) < 0.05, spent

# a folder of tables
tables = Tables(sys.argv[3], library=library)
for each in (text, ".l./..c/.../.L. - -", "..l/.../L../... C -"):
    with Table(f"{sys.argv[3]}/{tables.table(each).set}.db", library) as held:
        assert tables[each] == tables.get(Position(each)) == held[each] and tables.moves(each) == held.moves(each) and tables.line(each) == held.line(each)
raises(MissingTable, tables.__getitem__, "gle/.c./.C./ELG - -")
assert raises(Fault, tables.__getitem__, "x") == "E1 Shape" and tables.get("x", 1) == tables.get("gle/.c./.C./ELG - -", 1) == 1
assert text in tables and "gle/.c./.C./ELG - -" not in tables and 3 not in tables
assert tables.add(sys.argv[2]) == 1 and tables["gle/.c./.C./ELG - -"] == Value("draw")
tables.close()
assert tables[text] == Value("win", 3)
raises(MissingTable, Tables(sys.argv[3], "B").__getitem__, text)
raises(ValueError, Tables, sys.argv[3], "C")
raises(FileNotFoundError, tables.add, "testdata/none.db")
assert raises(Fault, tables.add, "README.md") == "E16 Magic"

# a folder where other programs have files: they are left out, and what begins as a table and is none is told by its name
with tempfile.TemporaryDirectory() as folder:
    shutil.copy("testdata/lions_alone_2.db", folder)
    for name, data in ("Thumbs.db", b"\xd0\xcf\x11\xe0" * 9), ("a.db", b"SQLite format 3\0"), ("b.db", b"DOBUCERT" * 9):
        pathlib.Path(folder, name).write_bytes(data)
    with Tables(folder, library=library) as some:
        assert some[text] == Value("win", 3) and some.add(folder) == 1
    for data, fault in (b"", "E15 Truncated"), (b"DOBU", "E15 Truncated"), (b"DOBUTSU3" + bytes(20), "E16 Magic"), (b"DOBUTSU2\3" + bytes(20), "E17 SetByte"):
        pathlib.Path(folder, "c.db").write_bytes(data)
        assert raises(Fault, Tables, folder) == f"{fault}: {pathlib.Path(folder, 'c.db')}"

# a certificate that goes on, or that never ends: no more is read than shows it
assert raises(Fault, Certificate, "/dev/zero") == "E16 Magic"
with tempfile.NamedTemporaryFile() as file:
    file.write(pathlib.Path("testdata/one_chick.cert").read_bytes())
    file.flush()
    Certificate(file.name)
    os.truncate(file.name, 1 << 40)
    assert raises(Fault, Certificate, file.name) == "E19 Trailing"
    file.seek(20)
    file.write((2124).to_bytes(4, "little") * 2)
    file.flush()
    os.truncate(file.name, 28)
    assert raises(Fault, Certificate, file.name) == "E15 Truncated"

# a picture: a group for each piece, those of the other side upside down
drawn = xml.etree.ElementTree.fromstring(Position("gle/.c./.../ELG C -")._repr_svg_())
groups = [each.get("transform") for each in drawn if each.tag.endswith("g")]
assert len(groups) == 8 and sum("rotate" in each for each in groups) == 4 and "translate(230 350) scale(1)" in groups, groups
print("used")
