#!/usr/bin/env python3
"""A second opinion on scan lists (document 02, request §8).

Written from documents 01 and 02 and their decided open points,
by someone who saw neither the code nor the definitions.

    python3 listmodel.py <list >text

reads a scan list and writes what is to be printed for it: a bench script, and
as its last line the dwell total, or the number and offset of the first fault.
"""

import math
import struct
import sys

CHANNEL, TARGET, DISTANCE, SPEED, DWELL = 1, 2, 3, 4, 5    # the tags

# 02 §8: "positions and speeds as in 01, dwell 1 to 10,000"; both ends are taken.
# 01: "its range the positions' range, REL's too", so for distances as well.
RANGE = {
    TARGET: (-2147483647, 2147483647),
    DISTANCE: (-2147483647, 2147483647),
    SPEED: (1, 5000000),
    DWELL: (1, 10000),
}
LAST_CHANNEL = 15
MOST_STEPS = 10000


class Refusal(Exception):
    """The first fault in the list: its number, and its field's byte offset."""

    def __init__(self, number, offset):
        super().__init__(number, offset)
        self.number = number
        self.offset = offset


def read_field(data, offset, tags):
    """Take the field at offset, where one of tags must stand.

    Returns its tag, its value (the channel's byte or the double) and the offset
    of the next field. 02 §8: "in one field the lower number", so the faults are
    looked for in the order of their numbers.
    """
    if offset == len(data):
        raise Refusal(21, offset)   # "a list that ends inside a step: at its end"

    # The length as written decides whether a field is cut short, whatever its
    # tag: a list must be cut into fields before tags mean anything.
    if len(data) - offset < 3:
        raise Refusal(20, offset)
    tag, length = struct.unpack_from("<BH", data, offset)
    begin = offset + 3
    end = begin + length
    if end > len(data):
        raise Refusal(20, offset)

    if tag not in tags:
        raise Refusal(21, offset)
    if length != (1 if tag == CHANNEL else 8):
        raise Refusal(22, offset)

    if tag == CHANNEL:
        channel = data[begin]
        if channel > LAST_CHANNEL:
            raise Refusal(23, offset)
        return tag, channel, end

    (double,) = struct.unpack_from("<d", data, begin)
    if not (math.isfinite(double) and double.is_integer()):
        raise Refusal(24, offset)
    # int() of a whole double is exact, however large, and "-0 is 0".
    low, high = RANGE[tag]
    if not low <= int(double) <= high:
        raise Refusal(25, offset)
    return tag, double, end


def printed(data: bytes) -> bytes:
    """Everything that is printed for a list, each line ended by a line feed."""
    lines = ["C REM"]
    steps = 0
    total = 0.0     # the dwells added as doubles, in the order of the list
    whole_sum = 0   # the same dwells added as whole numbers
    offset = 0      # of the field to be read next
    try:
        while offset < len(data):
            # 02 §8: "A step is 1, then 2 or 3, then 4; or 5 alone."
            first = offset
            tag, value, offset = read_field(data, first, (CHANNEL, DWELL))
            # "26 a step after the 10,000th" stands at that step's first field:
            # after that field's own faults, before all that follows it.
            if steps == MOST_STEPS:
                raise Refusal(26, first)
            if tag == DWELL:
                lines.append("T %d" % int(value))
                total += value
                whole_sum += int(value)
                # "added as doubles and proved equal to the whole-number sum"
                assert total == whole_sum
            else:
                # A target is judged before its speed's field is looked at: "the
                # first fault in the list counts". Nothing of the move is
                # printed before its last field is taken.
                x = "%X" % value
                tag, set_point, offset = read_field(data, offset, (TARGET, DISTANCE))
                _, speed, offset = read_field(data, offset, (SPEED,))
                move = "ABS" if tag == TARGET else "REL"
                lines.append("C SPDM%s%d" % (x, int(speed)))
                lines.append("C SPDM%s" % x)
                # 01: "signed ones carry a sign, + for 0"
                lines.append("C %s%s%+d" % (move, x, int(set_point)))
            steps += 1
        lines.append("%d" % int(total))
    except Refusal as fault:
        # "the steps before it stay printed, and number and offset replace the total"
        lines.append("%d %d" % (fault.number, fault.offset))
    return "".join(line + "\n" for line in lines).encode("ascii")


if __name__ == "__main__":
    sys.stdout.buffer.write(printed(sys.stdin.buffer.read()))
