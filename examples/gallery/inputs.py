#!/usr/bin/env python3
"""Writes an input of a program of this folder.

  inputs.py NAME [KIND]

KIND is `small` where it isn't given: what NAME.in holds; or `long`, of at most 65,536 words. For grid_histogram it may be
`crowded` or `hot` as well: as long, with echoes from 64 or from 8 squares in place of all. Each input comes from a generator
of its own, so that it is the same every time.
"""
import sys

# The words of the texts, of which those in front come more often.
VOCABULARY = """a all and are as at bank be boat by call come day did do down each find first flow for from get go had has have
he her him his how if in into is it its like line long look made make many may more my no not now number of oil on one or other
out part people river said see she so some stage than that the their them then there these they this time to two up use was
water way we were what when which who will with word would write you your""".split()

# The lines of the programs that keywords.c reads.
C_LINES = """int total;|int next = total + 1;|if (next > limit) {|return next;|while (next < 4096) {|next = next * 3 + 1;|}|
for (int k = 0; k < 16; k = k + 1) {|print(row[k]);|} else {|total = total + row[k] / 2;|int main() {""".replace("\n", "").split("|")


class Numbers:
    """Numbers that look drawn, each from the one before, by the generator of Knuth's MMIX."""

    def __init__(self, seed=7):
        self.state = seed

    def below(self, limit):
        self.state = (self.state * 6364136223846793005 + 1442695040888963407) % 2**64
        return (self.state >> 33) % limit

    def one_of(self, row):
        return row[self.below(len(row))]

    def shuffled(self, row):
        return [row.pop(self.below(len(row))) for _ in range(len(row))]


def codes(text):
    """The codes of a text, a line of words for each of its lines."""
    return [[ord(letter) for letter in line] for line in text.splitlines(keepends=True)]


def sentences(draw, size):
    """A text of many words, the frequent ones more often, with an end of line behind each ten."""
    text = ""
    while len(text) < size:
        line = [VOCABULARY[draw.below(1 + draw.below(len(VOCABULARY)))] for _ in range(10)]
        text += " ".join(line) + "\n"
    return codes(text[:size])


def list_walk(draw, size):
    order = draw.shuffled([1 + 4 * k for k in range(size)])
    nodes = {}
    for place, following in zip(order, order[1:] + [-1]):
        owed = 100000 + draw.below(2000000)
        months = 12 + draw.below(60) if draw.below(20) else 400
        nodes[place] = [following, owed, 200 + draw.below(900), owed // months]
    return [[order[0]]] + [nodes[place] for place in sorted(nodes)]


def crc(record):
    register = 0xFFFF
    for byte in record:
        register ^= byte << 8
        for _ in range(8):
            register = (register << 1 ^ (0x1021 if register & 0x8000 else 0)) & 0xFFFF
    return register


def cyclic_redundancy(draw, size):
    records = [b"123456789"] + [bytes(draw.below(256) for _ in range(4 + draw.below(24))) for _ in range(size - 1)]
    return [[len(it), *it, crc(it) ^ (k % 6 == 5)] for k, it in enumerate(records)]


def run_lengths(draw, size):
    row = []
    while len(row) < size:
        row += [255] * (1 + draw.below(1 + draw.below(400))) + [0] * (1 + draw.below(12))
    return [row[at : at + 32] for at in range(0, size, 32)]


def match_search(draw, size):
    return sentences(draw, size)


def word_count(draw, size):
    return sentences(draw, size)


def partition_gains(draw, size):
    """A graph whose even nodes belong together, and its odd ones, so that the halves to begin with are bad ones."""
    cost = [[0] * size for _ in range(size)]
    for a in range(size):
        for b in range(a):
            if draw.below(4) < (3 if (a - b) % 2 == 0 else 1):
                cost[a][b] = cost[b][a] = 1 + draw.below(9)
    return [[size], *cost]


def option_prices(draw, size):
    return [[1000000, 1050000, 962, 27735, 52, size, 1977]]


def mandelbrot(draw, size):
    """The whole set in a few rows, or else a narrow strip through its middle in many."""
    return [[-22000, 11250, 1500, size]] if size < 100 else [[-6200, 12000, 20, size]]


def queens(draw, size):
    def boards(board, rows):
        if rows == 0:
            return [board]
        free = [it for it in range(1, 9) if all(it != q and abs(it - q) != len(board) - k for k, q in enumerate(board))]
        return [it for column in free for it in boards(board + [column], rows - 1)]

    given = boards([], 4)
    drawn = [draw.one_of(given) for _ in range(size)]
    return [[int("".join(map(str, it))) for it in drawn[at : at + 8]] for at in range(0, size, 8)]


def grid_histogram(draw, size, squares=512):
    rows = []
    for _ in range(size):
        square = draw.below(squares) * (512 // squares)
        across, up = square % 32 * 64 + draw.below(64) - 1024, square // 32 * 64 + draw.below(64)
        rows.append(polar(across, up))
    return rows


def polar(across, up):
    from math import atan2, degrees, hypot

    return [round(10 * degrees(atan2(up, across))), round(hypot(across, up))]


def keywords(draw, size):
    text = ""
    while len(text) < size:
        text += "  " * draw.below(4) + draw.one_of(C_LINES) + "\n"
    return codes(text[:size])


def word_distances(draw, size):
    pairs = []
    for _ in range(size):
        one = "".join(draw.one_of(VOCABULARY) for _ in range(3))[: 4 + draw.below(7)]
        other = list(one)
        for _ in range(draw.below(5)):
            other[draw.below(len(other))] = draw.one_of(["", "e", "s", "an", "t"])
            other = list("".join(other)) or ["a"]
        other = other[:10]
        pairs.append([len(one), len(other), *map(ord, one), *map(ord, other)])
    return pairs


def square_free(draw, size):
    return [[0, 640]] if size == 10 else [[100000, 100000 + 64 * size]]


def neural_layer(draw, size):
    network = [[draw.below(41) - 20] + [draw.below(256) - 128 for _ in range(16)] for _ in range(6)]
    return network + [[draw.below(256) - 128 for _ in range(16)] for _ in range(size)]


def insertion_sort(draw, size):
    return [[1990 + draw.below(40), 1 + draw.below(12), 1 + draw.below(28), draw.below(100000)] for _ in range(size)]


def base_sixty_four(draw, size):
    if size < 100:
        return codes("Many hands make light work.\n"[:size])
    return [[draw.below(256) for _ in range(16)] for _ in range(size // 16)]


# The size of the small and of the long input: nodes, records, words, paths, rows, boards, echoes, pairs or segments.
SIZES = {
    list_walk: (9, 8000),
    cyclic_redundancy: (6, 3600),
    run_lengths: (288, 65536),
    match_search: (200, 6000),
    word_count: (260, 65536),
    partition_gains: (10, 128),
    option_prices: (12, 8192),
    mandelbrot: (16, 600),
    queens: (16, 4096),
    grid_histogram: (40, 32768),
    keywords: (240, 65536),
    word_distances: (8, 2000),
    square_free: (10, 512),
    neural_layer: (8, 4089),
    insertion_sort: (12, 256),
    base_sixty_four: (26, 65536),
}


def main():
    name, kind = sys.argv[1], (sys.argv[2:] or ["small"])[0]
    program = next((it for it in SIZES if it.__name__ == name), None)
    squares = {"crowded": 64, "hot": 8}
    if program is None or kind not in ("small", "long") and not (program is grid_histogram and kind in squares):
        sys.exit(__doc__)
    small, long = SIZES[program]
    if kind in squares:
        rows = program(Numbers(), long, squares[kind])
    else:
        rows = program(Numbers(), small if kind == "small" else long)
    print("\n".join(" ".join(map(str, row)) for row in rows))


main()
