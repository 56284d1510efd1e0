"""The limits of tools/hostile.py.

README.md, SECURITY.md and the manual page state what an adversarial object can take, in seconds and
bytes. The limits of time are multiples of the load of an ordinary object, so that they hold on each
machine: about twice what the costliest shape with the limit takes.
"""
from typing import NamedTuple

MEGABYTE = 1 << 20
LEAST_TIME = 0.1  # seconds; shorter times do not show growth


class Limit(NamedTuple):
    """The limits of some shapes."""

    whole: int  # the size in bytes or range items
    time: float  # at the whole size, as a multiple of the load of the ordinary object
    memory_of_byte: int  # bytes of memory for each byte of the object
    memory_of_item: int  # and for each range item, which scopes may share
    # Linear work doubles with the size. Sorting adds a logarithm, and each access costs more once
    # the data exceeds a cache of the processor.
    growth: float = 3  # from one size to twice the size


# The costliest byte is a row, which takes two endpoints and a segment.
BY_SIZE = Limit(20 * MEGABYTE, 20, 100, 0)
# Rows that are out of order are sorted. Each comparison reads two rows anywhere in memory, and the
# rows outgrow the caches between the quarter and the whole of the size.
BY_SORTING = BY_SIZE._replace(time=30, growth=3.5)
# An object has up to 4,194,304 range items. Each takes a range, two endpoints and two segments.
BY_ITEMS = Limit(4_096_000, 8, 100, 100)
# At each endpoint, the sweep searches the first scope of each of 254 levels.
BY_CHAINS = BY_ITEMS._replace(time=75)
# Each of these searches uses three levels of bitmaps. An eighth of the items takes seconds. They
# took 15 to 28 times as long as the ordinary object.
BY_SPARSE_CHAINS = BY_ITEMS._replace(whole=512_000, time=40)


class Costs(NamedTuple):
    """What an object costs at a quarter, a half and the whole of its size."""

    base: float  # CPU seconds for the ordinary object
    times: tuple  # CPU seconds
    memory: int  # bytes, at the whole size
    length: int  # bytes of the object at the whole size
    size: int  # the whole size, in bytes or range items

    def growth(self):
        """Returns the greatest factor between the times of two sizes, or 0 if all are short."""
        pairs = zip(self.times, self.times[1:])
        return max(after / before if after > LEAST_TIME else 0 for before, after in pairs)

    def exceeded(self, limit):
        """Returns the names of the limits that the costs exceed."""
        most_time = limit.time * self.base * self.size / limit.whole
        items = self.size if limit.memory_of_item else 0
        most_memory = limit.memory_of_byte * self.length + limit.memory_of_item * items
        tests = {"growth": self.growth() > limit.growth, "time": self.times[-1] > most_time,
                 "memory": self.memory > most_memory}
        return [name for name, is_exceeded in tests.items() if is_exceeded]
