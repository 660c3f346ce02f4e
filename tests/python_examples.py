"""The examples in the docs of the package are as they say."""
import doctest
import importlib
tried = 0
for name in ("", ".certificate", ".faults", ".library", ".pure", ".position", ".puzzles", ".table", ".tables", ".value"):
    ran = doctest.testmod(importlib.import_module("dobutsu" + name))
    assert ran.failed == 0, name
    tried += ran.attempted
assert tried >= 20, tried
