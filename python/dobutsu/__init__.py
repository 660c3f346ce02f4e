"""Values of Dobutsu shogi by a database file, which `dobutsu build` makes.

    from dobutsu import Position, Table, Tables
    table = Table("222.db")
    table["gle/.c./.C./ELG - -"]            # Value('loss', 78)
    table.moves("gle/.c./.C./ELG - -")      # each move with its value, best first
    table.line("gle/.c./.C./ELG - -")       # best play to the end
    table.probe_many(texts)                 # each text's value or fault, many at once
    table.stats().longest_win               # (Value('win', 173), 'lgc/e../.../Lgc E -')
    for text, value in table.positions():   # each class, in the order of the file
        ...
    tables = Tables("tables")               # a folder: each question goes to the file of its position's set
    Position("gle/.c./.C./ELG - -").after("Cb2xb3").sfen("w")

Positions are read by the proved library where it is found, else by pure Python: `table.engine` says which.
"""
from .certificate import Certificate
from .pure import Fault
from .position import IllegalMove, Position, after_move
from .table import Table
from .tables import MissingTable, Tables
from .value import Move, Stats, Value

__all__ = [
    "Certificate", "Fault", "IllegalMove", "MissingTable", "Move", "Position", "Stats", "Table", "Tables", "Value", "after_move",
]
__version__ = "0.1.0"
