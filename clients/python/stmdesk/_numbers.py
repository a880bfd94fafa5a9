"""Sets of numbers that are kept as ranges."""

from __future__ import annotations

from bisect import bisect_left, bisect_right
from collections.abc import Iterable, Sequence

Range = Sequence[int]  # its lowest and its highest number


class Numbers:
    """A set of numbers."""

    __slots__ = ("ranges",)

    def __init__(self, ranges: Iterable[Range] = ()) -> None:
        self.ranges = [[low, high] for low, high in ranges]  # ascending, and no two touch

    def __contains__(self, number: int) -> bool:
        at = bisect_right(self.ranges, number, key=lambda it: it[0])
        return at > 0 and number <= self.ranges[at - 1][1]

    def add(self, low: int, high: int | None = None) -> None:
        """Adds a number, or all from one to another."""
        high = low if high is None else high
        begin = bisect_left(self.ranges, low - 1, key=lambda it: it[1])  # the first range that it touches
        end = bisect_right(self.ranges, high + 1, key=lambda it: it[0])
        if begin < end:
            low, high = min(low, self.ranges[begin][0]), max(high, self.ranges[end - 1][1])
        self.ranges[begin:end] = [[low, high]]

    def text(self, most: int) -> str:
        """The first `most` ranges, as `1-4,7`."""
        return ",".join(str(low) if low == high else f"{low}-{high}" for low, high in self.ranges[:most])
