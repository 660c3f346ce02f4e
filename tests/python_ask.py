"""Asks an engine for the value, the moves and the line of each position of standard input, and what `stats` counts: python_ask.py pure|LIBRARY FILE"""
import sys
from dobutsu import Fault, Table, pure
library = None if sys.argv[1] == "pure" else sys.argv[1]
with Table(sys.argv[2], library) as table:
    assert table.engine == ("libdobutsu 0.1.0" if library else "pure Python"), table.engine
    for text in sys.stdin.read().split("\n")[:-1]:
        try:
            print(table[text])
            print(*table.moves(text), sep="\n")
            print(*table.line(text))
        except Fault as fault:
            print(f"E{fault.number}")
    walked = list(table.positions())
    assert table.probe_many(text for text, _ in walked) == [value for _, value in walked] and len(walked) == len(table)
    for number in range(0, len(walked), max(1, len(walked) // 100)):
        position = pure.position_at(table.rules, tuple(map(int, table.set)), number)
        assert walked[number][0] == pure.write_position(position), number
    stats = table.stats()
    for kind in ("win", "loss", "draw"):
        print(kind, stats.count(kind))
    for kind, longest in (("win", stats.longest_win), ("loss", stats.longest_loss)):
        if longest:
            print("longest", *longest)
