"""Whether the JSON objects of probe, look, moves and line say what their lines do, by FOLDER's asked, WORD.txt and WORD.json: files_objects.py FOLDER"""
import json
import pathlib
import sys
NAMES = {"l": "lion", "g": "giraffe", "e": "elephant", "c": "chick", "h": "hen"}
work = pathlib.Path(sys.argv[1])


def objects(word):
    return [json.loads(line) for line in (work / f"{word}.json").read_text().splitlines()]


def worth(o):
    return o["value"] if o["plies"] is None else f"{o['value']} {o['plies']}"


def squares(text):
    """From where and to where the move goes."""
    return (None, text[2:4]) if "*" in text else (text[1:3], text[4:6])


for kind in ("txt", "json"):
    assert (work / f"probe.{kind}").read_bytes() == (work / f"look.{kind}").read_bytes(), kind
asked = (work / "asked").read_text().splitlines()
looked = (work / "look.txt").read_text().splitlines()
moved = (work / "moves.txt").read_text().split("\n\n")[:-1]
lined = (work / "line.txt").read_text().splitlines()
rows = list(zip(asked, looked, moved, lined, objects("look"), objects("moves"), objects("line"), strict=True))
assert len(rows) == 500 and sum("fault" in row[4] for row in rows) == len(asked) // 7
for position, value, moves, line, look_object, moves_object, line_object in rows:
    if value.startswith("E"):
        assert look_object == moves_object == line_object == {"fault": value} and moves == line == value, position
        continue
    assert look_object["position"] == moves_object["position"] == line_object["position"] == position
    assert worth(look_object) == worth(line_object) == value, position
    assert [f"{o['move']} {worth(o)}" for o in moves_object["moves"]] == [move for move in moves.splitlines() if move != "end"], position
    assert [o["move"] for o in line_object["moves"]] == [move for move in line.split() if move not in ("end", "draw")], position
    for o in moves_object["moves"] + line_object["moves"]:
        assert (o["from"], o["to"]) == squares(o["move"]) and o["kind"] == NAMES[o["move"][0].lower()] and o["catch"] == ("x" in o["move"]), o
