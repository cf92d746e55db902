"""exact.py LIBRARY: compares himm_import of a shared object with arithmetic that is exact, on hard cases and on random ones.

Floats are bit patterns here, and are handed to the library as such. The expected answer is worked out in whole numbers of any size, which
count steps of 2^-149: every finite 32-bit float is a whole number of them. Python's own floats have no part in it.
"""

import collections
import ctypes
import itertools
import random
import struct
import sys

SEED = 203
RANDOM_CASES = 200_000

TAKEN, WAITED = 0, 1
DONE, OUT_OF_RANGE, BUFFER_TOO_SHORT, BAD_TIMING = 0, 6, 15, 20
ARROW, CLEAR = 0x14, 0x15
NODES, COMMANDS, LARGEST_COST = 256, 16, 65535

# What the output and the length hold before a call, and how many bytes behind the output's end are watched.
FILLER, UNTOUCHED, BEHIND = 0xA5, 0xDEADBEEF, 8

# 1 second in steps of 2^-149.
SECOND = 1 << 149

# Floats by their bits: the sign, which alone is minus zero; infinity; the largest finite one; the smallest normal one.
MINUS, INFINITY, LARGEST, NORMAL = 0x80000000, 0x7F800000, 0x7F7FFFFF, 0x00800000

Case = collections.namedtuple("Case", "node command target kind seconds dead_time room")


# The expected answer.


def steps(bits):
    """The value of a float in steps of 2^-149; None where it is infinite or no number."""
    sign, exponent, fraction = bits >> 31, bits >> 23 & 0xFF, bits & 0x7FFFFF
    if exponent == 0xFF:
        return None
    size = fraction if exponent == 0 else (0x800000 + fraction) << (exponent - 1)
    return -size if sign else size


def rounded(value):
    """A number of steps that is not below zero, rounded to the nearest float, halfway to the even one: 24 binary digits are kept."""
    unit = 1 << max(value.bit_length() - 24, 0)
    count, rest = divmod(value, unit)
    if 2 * rest > unit or (2 * rest == unit and count % 2 == 1):
        count += 1
    return count * unit


def cost_of(seconds, dead_time):
    """The cost of two floats, or None where the timing is refused."""
    reading, dead = steps(seconds), steps(dead_time)
    if reading is None or dead is None or reading < 0 or dead < 0 or reading < dead:
        return None
    difference = rounded(reading - dead)
    return -(-difference // SECOND) if difference <= LARGEST_COST * SECOND else None


def expected(case):
    """The number that is returned, and the bytes."""
    if case.node >= NODES or case.command >= COMMANDS or case.target >= NODES or case.kind not in (TAKEN, WAITED):
        return OUT_OF_RANGE, b""
    if case.kind == WAITED:
        data = struct.pack(">BHB", CLEAR, case.node, case.command)
    else:
        cost = cost_of(case.seconds, case.dead_time)
        if cost is None:
            return BAD_TIMING, b""
        data = struct.pack(">BHBHH", ARROW, case.node, case.command, case.target, cost)
    return (DONE, data) if case.room >= len(data) else (BUFFER_TOO_SHORT, b"")


# The library's answer.


def float_of(bits):
    """A float argument with exactly these bits."""
    return ctypes.c_float.from_buffer_copy(struct.pack("=I", bits))


class Library:
    """himm_import of a shared object."""

    def __init__(self, path):
        self.call = ctypes.CDLL(path).himm_import
        word, real = ctypes.c_uint32, ctypes.c_float
        self.call.argtypes = [word] * 4 + [real] * 2 + [ctypes.c_void_p, ctypes.c_size_t, ctypes.POINTER(word)]
        self.call.restype = word

    def answer(self, case):
        """The number returned, the length left and all bytes of the output, with those behind its end."""
        out = (ctypes.c_uint8 * (case.room + BEHIND))(*[FILLER] * (case.room + BEHIND))
        length = ctypes.c_uint32(UNTOUCHED)
        numbers = (case.node, case.command, case.target, case.kind)
        floats = (float_of(case.seconds), float_of(case.dead_time))
        number = self.call(*numbers, *floats, ctypes.byref(out), case.room, ctypes.byref(length))
        return number, length.value, bytes(out)


def answer_expected(case):
    """The same of the expected answer."""
    number, data = expected(case)
    length = len(data) if number == DONE else UNTOUCHED
    return number, length, data + bytes([FILLER]) * (case.room + BEHIND - len(data))


# Floats to try.


def nearest(value):
    """The bits of the float that is nearest to a number of steps, which is at least zero and at most the largest float."""
    value = rounded(value)
    place = max(value.bit_length() - 24, 0)
    fraction = value >> place
    return fraction if fraction < 0x800000 else ((place + 1) << 23) + (fraction - 0x800000)


def half_step(bits):
    """Half of the distance from a float of at least 1 second to the next one."""
    return nearest(steps(bits + 1) - steps(bits)) - NORMAL


def whole(seconds):
    """The bits of a whole number of seconds."""
    return nearest(seconds * SECOND)


NOT_FINITE = [INFINITY, MINUS | INFINITY, 0x7FC00000, 0xFFC00000, 0x7F800001, 0xFF800001, 0x7FBFFFFF, 0xFFBFFFFF, 0x7FFFFFFF, 0xFFFFFFFF]
BELOW_ZERO = [MINUS | 1, MINUS | NORMAL, MINUS | whole(1), MINUS | whole(65535), MINUS | LARGEST]
ZERO_OR_ABOVE = [0, MINUS, 1, 2, NORMAL - 1, NORMAL, NORMAL + 1, whole(1), whole(65535), whole(65535) + 1, whole(1 << 24), LARGEST]


def hard_timings():
    """Pairs of floats where something changes."""
    yield from itertools.product(NOT_FINITE + BELOW_ZERO + ZERO_OR_ABOVE, repeat=2)
    for seconds in [1, 2, 3, 4, 5, 7, 8, 255, 256, 1000, 32767, 32768, 65533, 65534, 65535, 65536]:
        for bits in range(whole(seconds) - 3, whole(seconds) + 4):
            half = half_step(bits)
            for dead_time in [0, MINUS, 1, NORMAL - 1, NORMAL, half - NORMAL, half + NORMAL, half + NORMAL // 2]:
                yield from ((bits, dead_time + near) for near in (0, 1))
            yield from ((bits, half + near) for near in (-2, -1, 0, 1, 2))
            yield from ((nearest(steps(bits) + steps(dead)), dead) for dead in (half, whole(1), whole(3) + 1, whole(65536) + 5))
    for bits in [1, 2, 3, NORMAL // 2, NORMAL - 1, NORMAL, NORMAL + 1, 2 * NORMAL]:
        yield from ((bits, dead_time) for dead_time in (0, MINUS, 1, bits - 1, bits, bits + 1))


def hard_cases():
    """Each hard timing, taken and waited for; then parts out of range, orders of refusals and outputs of all lengths."""
    for (seconds, dead_time), kind in itertools.product(hard_timings(), (TAKEN, WAITED)):
        yield Case(2, 3, 4, kind, seconds, dead_time, 8)
    timings = [(whole(1), 0), (0, whole(1)), (0x7FC00000, 0)]
    words = [0, 1, 15, 16, 255, 256, 257, 65535, 65536, 1 << 31, (1 << 32) - 1]
    for (seconds, dead_time), kind, room in itertools.product(timings, [0, 1, 2, 255, 256, 1 << 31], [0, 3, 4, 5, 7, 8, 9, 40]):
        for word in words:
            yield Case(word, 3, 4, kind, seconds, dead_time, room)
            yield Case(2, word, 4, kind, seconds, dead_time, room)
            yield Case(2, 3, word, kind, seconds, dead_time, room)


def random_timing(choose):
    """A pair of floats: any bits, any without a sign, subnormal ones, near the largest cost, apart by nearly a whole number, or with a
    difference that is nearly halfway between two floats."""
    near = choose.randint(-2, 2)
    kind = choose.randrange(6)
    if kind == 0:
        return choose.getrandbits(32), choose.getrandbits(32)
    if kind == 1:
        return choose.getrandbits(31), choose.getrandbits(31)
    if kind == 2:
        return choose.getrandbits(choose.randint(1, 24)), choose.getrandbits(choose.randint(1, 24))
    if kind == 3:
        dead_time = choose.choice([0, 1, choose.getrandbits(30), half_step(whole(65535)) + choose.randint(-1, 1)])
        return nearest(65535 * SECOND + steps(dead_time)) + near, dead_time
    seconds = whole(choose.randint(1, 1 << choose.randint(1, 16)))
    if kind == 4:
        dead_time = choose.getrandbits(23) + choose.randint(100, 145) * NORMAL
        return nearest(steps(seconds) + steps(dead_time)) + near, dead_time
    quarters = choose.randint(1, 12) * steps(half_step(seconds)) // 2
    return seconds + near, nearest(quarters) + choose.randint(-1, 1)


def random_cases():
    """The same cases in every run, mostly with room enough and numbers in range."""
    choose = random.Random(SEED)
    for _ in range(RANDOM_CASES):
        numbers = [choose.randrange(limit) if choose.randrange(30) else choose.getrandbits(32) for limit in (NODES, COMMANDS, NODES)]
        kind = choose.choices([TAKEN, WAITED, choose.getrandbits(32)], [90, 8, 2])[0]
        room = choose.choices([8, 4, 7, 3, 0, 20], [80, 4, 4, 4, 4, 4])[0]
        yield Case(*numbers, kind, *random_timing(choose), room)


# Costs that were worked out by hand; the second lies halfway between 65,535 and the next float.
KNOWN = {
    (0x3FC00000, 0x3E800000): 2,  # 1.5 less 0.25
    (0x477FFF01, 0x3B000000): 65535,  # 65,535 + 1/256 less 1/512
    (0x477FFF02, 0x3B000000): None,  # 65,535 + 2/256 less 1/512
    (0x477FFF01, 0x00000000): None,
    (0x00000001, 0x80000000): 1,
    (0x80000000, 0x00000000): 0,
    (0x80000001, 0x80000001): None,
}


def compare(library, name, cases):
    """Compares every case and prints how often each answer was given; ends the program at the first difference."""
    counts = collections.Counter()
    for case in cases:
        got, wanted = library.answer(case), answer_expected(case)
        if got != wanted:
            print(f"{case} (seconds {case.seconds:#010x}, dead time {case.dead_time:#010x}): got {got}, expected {wanted}")
            sys.exit(1)
        counts[wanted[0]] += 1
    refused = [f"{counts[number]} refused with {number}" for number in (OUT_OF_RANGE, BAD_TIMING, BUFFER_TOO_SHORT)]
    print(f"{name}: {sum(counts.values())} as expected: {counts[DONE]} done, {', '.join(refused)}")


def main():
    if len(sys.argv) != 2:
        sys.exit("usage: exact.py LIBRARY")
    try:
        library = Library(sys.argv[1])
    except AttributeError:
        sys.exit("this library has no himm_import")
    for (seconds, dead_time), cost in KNOWN.items():
        assert cost_of(seconds, dead_time) == cost, (hex(seconds), hex(dead_time))
    compare(library, "hard cases", hard_cases())
    compare(library, f"random cases, seed {SEED}", random_cases())


if __name__ == "__main__":
    main()
