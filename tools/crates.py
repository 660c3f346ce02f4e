#!/usr/bin/env python3
"""What each crate stands on, by crates.txt, for the tools that ask: tools/crates.py CRATE prints the lines of crates.txt of a crate and of those below it."""
import functools
import pathlib
import sys

TOP = pathlib.Path(__file__).resolve().parent.parent


@functools.cache
def lines():
    """The line of each crate, by its name, in the order of the file."""
    found = [line for line in (TOP / "crates.txt").read_text().split("\n") if line and line[0] != "#"]
    return {line.partition(":")[0].split()[0]: line for line in found}


def libraries():
    """The libraries that each crate names, the ported ones among them."""
    return {name: line.partition(":")[2].split() for name, line in lines().items()}


@functools.cache
def uses():
    """The crates of the repository that each crate names."""
    named = libraries()
    return {name: [it for it in found if it in named] for name, found in named.items()}


@functools.cache
def with_below(name):
    """The crate and all that stand below it."""
    return {name}.union(*map(with_below, uses()[name]))


if __name__ == "__main__":
    if len(sys.argv) != 2 or sys.argv[1] not in lines():
        sys.exit(__doc__)
    wanted = with_below(sys.argv[1])
    print("\n".join(line for name, line in lines().items() if name in wanted))
