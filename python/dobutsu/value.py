"""Values of positions, and moves with their values."""
from __future__ import annotations

import dataclasses
import functools
from typing import NamedTuple


@functools.total_ordering
@dataclasses.dataclass(frozen=True, repr=False)
class Value:
    """What the side to move can force: a win or a loss in that many plies, or a draw.

    Values compare by how good they are for the side to move, and print as the program prints them.

    >>> Value("win", 3) > Value("win", 5) > Value("draw") > Value("loss", 8) > Value("loss", 2)
    True
    >>> print(Value("loss", 78))
    loss 78
    >>> Value.read("win 3") == Value("win", 3)
    True
    """

    kind: str
    plies: int = 0

    def __post_init__(self) -> None:
        if self.kind not in ("win", "loss", "draw"):
            raise ValueError(f"no kind of value: {self.kind!r}")
        if self.plies < 0 or (self.kind == "draw" and self.plies) or (self.kind == "win" and not self.plies):
            raise ValueError(f"no value: {self.kind} {self.plies}")

    @classmethod
    def read(cls, text: str) -> Value:
        """The value of that text: `win D`, `loss D` or `draw`."""
        kind, _, plies = text.partition(" ")
        return cls(kind, int(plies or 0))

    def _goodness(self) -> tuple[int, int]:
        if self.kind == "win":
            return 1, -self.plies
        return (0, 0) if self.kind == "draw" else (-1, self.plies)

    def __lt__(self, other: Value) -> bool:
        if not isinstance(other, Value):
            return NotImplemented
        return self._goodness() < other._goodness()

    def __str__(self) -> str:
        return self.kind if self.kind == "draw" else f"{self.kind} {self.plies}"

    def __repr__(self) -> str:
        return f"Value({self.kind!r})" if self.kind == "draw" else f"Value({self.kind!r}, {self.plies})"


class Move(NamedTuple):
    """A move's text, and the value that the side that makes it then has.

    >>> print(Move("La2-a3", Value("win", 3)))
    La2-a3 win 3
    """

    text: str
    value: Value

    def __str__(self) -> str:
        return f"{self.text} {self.value}"


class Stats(NamedTuple):
    """How many classes of a file have which value, and the first class of the longest win and loss, with their values."""

    classes: int
    values: dict[Value, int]
    longest_win: tuple[Value, str] | None
    longest_loss: tuple[Value, str] | None

    def count(self, kind: str) -> int:
        """How many classes are won, lost or drawn: `win`, `loss` or `draw`."""
        return sum(number for value, number in self.values.items() if value.kind == kind)
