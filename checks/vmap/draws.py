"""The draws of a packet, and how an endpoint of a list is picked by them, as docs/FORMAT.md says:
by the remainder of the first one, or by thresholds, each of which takes the next.

The words of a seed are those of ChaCha (RFC 8439, 2.3) with 8 rounds, whose key is the eight bytes
of the seed and then zeros, and whose last 64 bits are the number of the line.
"""

from functools import lru_cache

MOST = 2**31 - 1  # the draw that is missing
WORDS = 16  # of a block
ROUNDS = 4  # of a column and a diagonal one
CONSTANTS = [int.from_bytes(b"expand 32-byte k"[at : at + 4], "little") for at in range(0, 16, 4)]
COLUMNS = [(at, at + 4, at + 8, at + 12) for at in range(4)]
DIAGONALS = [(at, (at + 1) % 4 + 4, (at + 2) % 4 + 8, (at + 3) % 4 + 12) for at in range(4)]


def words_of(number):
    """The two words of a number, the lower one first."""
    return [number % 2**32, number >> 32]


def turned(word, bits):
    return (word << bits | word >> 32 - bits) % 2**32


def quarter(state, a, b, c, d):
    """A quarter round."""
    for one, other, last, bits in ((a, b, d, 16), (c, d, b, 12), (a, b, d, 8), (c, d, b, 7)):
        state[one] = (state[one] + state[other]) % 2**32
        state[last] = turned(state[last] ^ state[one], bits)


@lru_cache(maxsize=4096)
def block(seed, stream, number):
    """The words of a block of a seed's stream."""
    first = [*CONSTANTS, *words_of(seed), *[0] * 6, *words_of(number), *words_of(stream)]
    state = list(first)
    for _ in range(ROUNDS):
        for places in COLUMNS + DIAGONALS:
            quarter(state, *places)
    return [(it + own) % 2**32 for it, own in zip(state, first)]


class Draws:
    """Those of the packet of a line: the listed ones, or those of a seed, or none."""

    def __init__(self, value, line):
        self.listed, self.seed, self.line = value.get("draws"), value.get("seed"), line

    def __getitem__(self, place):
        if self.listed is None and self.seed is not None:
            return block(self.seed, self.line, place // WORDS)[place % WORDS] // 2
        listed = self.listed or []
        return listed[place] if place < len(listed) else MOST


def by_remainder(draws, size):
    """The place, from 0, of the endpoint that is picked of so many."""
    return draws[0] % size


def threshold(size):
    """Below which draws the first of so many is taken: the chance has ten decimals."""
    tenth = 10**10
    chance = round_half_even(tenth, size)
    return (2**32 * chance + tenth) // (2 * tenth)


def round_half_even(number, parts):
    whole, rest = divmod(number, parts)
    is_up = 2 * rest > parts or (2 * rest == parts and whole % 2 == 1)
    return whole + is_up


def by_thresholds(draws, size):
    """The place that the tests of a replay's rules pick."""
    tests = (draws[place] < threshold(size - place) for place in range(size - 1))
    return next((place for place, holds in enumerate(tests) if holds), size - 1)
