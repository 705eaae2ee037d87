"""Numbers side by side in one whole number, so that many are added to or compared at once."""

from __future__ import annotations

import struct

# The bytes of a lane, and how `struct` calls such a number.
FORMS = {2: "H", 4: "I", 8: "Q"}
# The bits of all lanes: with more of them a number needs more memory, with fewer there are more.
BITS = 8192


class Lanes:
    """As many lanes as there is room for, each for a number from 0 to a most. The top bit of a lane
    is free for comparing."""

    def __init__(self, most: int) -> None:
        self.form = next(form for size, form in FORMS.items() if most < 1 << 8 * size - 1)
        self.bits = 8 * struct.calcsize("<" + self.form)
        self.count = BITS // self.bits
        # 1 in each lane, and the top bit of each.
        self.ones = sum(1 << self.bits * lane for lane in range(self.count))
        self.tops = self.ones << self.bits - 1

    def single(self, lane: int, number: int) -> int:
        """A number in a lane, and 0 in all others."""
        return number << self.bits * lane

    def greatest(self, one: int, other: int) -> int:
        """The greater number of each lane."""
        rest = (one | self.tops) - other
        wins = rest & self.tops
        return other + (rest & wins - (wins >> self.bits - 1))

    def numbers(self, lanes: int) -> tuple[int, ...]:
        """The number of each lane."""
        text = lanes.to_bytes(BITS // 8, "little")
        return struct.unpack("<%d%s" % (self.count, self.form), text)
