#!/usr/bin/env python3
"""Prints the digests that the tests of the receiver in crates/link must find, one for each case.

Written apart from the verified code, from docs/FORMAT.md and docs/CALLS.md: a sender that makes a block's line as one list, a receiver
that keeps all octets since it began to hunt and the number of octets since its last marker, and a decoder of rs16 by Berlekamp and
Massey, Chien and Forney. What happens to the line and which calls are made follows from a generator of numbers that the tests have too:
octets altered alone, in markers and in a row, octets lost, doubled and foreign, pieces of any size, next and show at any moment,
memories too short and too long. Every answer and, behind each block, the whole memory goes into the digest. It fails if some kind of answer is hardly met.

    code depth rows symbol subframe-rows misses step randomized: digest"""

from collections import Counter

CASES = [
    ("bare", 1, 2, 5, 1, 1, 0, 0),
    ("bare", 1, 2, 51, 2, 2, 0, 0),
    ("bare", 2, 4, 17, 2, 2, 7, 1),
    ("rs16", 1, 3, 15, 1, 3, 0, 1),
    ("rs16", 2, 4, 6, 1, 2, 3, 0),
]
BLOCKS, TURNS = 200, 80
SEED, DIGEST_START, DIGEST_FACTOR = 0x1ACFFC1D, 0xCBF29CE484222325, 0x100000001B3
SYNC = [0x1A, 0xCF, 0xFC, 0x1D]


# ---- the field and rs16: octets on the line are elements in the dual basis


def times(a, b):
    product = 0
    while b:
        if b & 1:
            product ^= a
        a = a << 1 ^ (0x187 if a & 0x80 else 0)
        b >>= 1
    return product


POWER = [1]
while len(POWER) < 255:
    POWER.append(times(POWER[-1], 2))
LOG = {element: n for n, element in enumerate(POWER)}
BASIS = [0x8D, 0xEF, 0xEC, 0x86, 0xFA, 0x99, 0xAF, 0x7B]


def on_line(element):
    octet = 0
    for digit in range(8):
        if element >> (7 - digit) & 1:
            octet ^= BASIS[digit]
    return octet


ELEMENT = {on_line(element): element for element in range(256)}
ROOTS = [11 * i % 255 for i in range(112, 144)]


def mul(a, b):
    return POWER[(LOG[a] + LOG[b]) % 255] if a and b else 0


def div(a, b):
    return POWER[(LOG[a] - LOG[b]) % 255] if a else 0


def value(poly, x):
    """A polynomial, lowest coefficient first, at x."""
    total = 0
    for c in reversed(poly):
        total = mul(total, x) ^ c
    return total


def generator():
    poly = [1]
    for root in ROOTS:
        poly = [a ^ mul(b, POWER[root]) for a, b in zip([0] + poly, poly + [0])]
    return poly


GENERATOR = generator()


def encode_word(information):
    rest = [0] * 32
    for octet in information:
        lead = ELEMENT[octet] ^ rest[31]
        rest = [(rest[i - 1] if i else 0) ^ mul(lead, GENERATOR[i]) for i in range(32)]
    return information + [on_line(rest[31 - i]) for i in range(32)]


def mend_word(word):
    """The codeword within 16 octets, or None."""
    elements = [ELEMENT[octet] for octet in reversed(word)]
    syndromes = [value(elements, POWER[root]) for root in ROOTS]
    if not any(syndromes):
        return word
    # Berlekamp and Massey
    locator, before, length, gap, last = [1], [1], 0, 1, 1
    for n in range(32):
        d = syndromes[n]
        for i in range(1, length + 1):
            if i < len(locator):
                d ^= mul(locator[i], syndromes[n - i])
        if d == 0:
            gap += 1
            continue
        factor = div(d, last)
        shifted = [0] * gap + [mul(factor, c) for c in before]
        size = max(len(locator), len(shifted))
        changed = [(locator[i] if i < len(locator) else 0) ^ (shifted[i] if i < len(shifted) else 0) for i in range(size)]
        if 2 * length <= n:
            before, last, length, gap = locator, d, n + 1 - length, 1
        else:
            gap += 1
        locator = changed
    if length > 16:
        return None
    evaluator = [0] * 32
    for i, c in enumerate(locator):
        for j in range(32 - i):
            evaluator[i + j] ^= mul(c, syndromes[j])
    slope = [c if i % 2 == 0 else 0 for i, c in enumerate(locator[1:])]
    mended, found = list(elements), 0
    for power in range(255):
        inverse = POWER[-11 * power % 255]
        if value(locator, inverse) == 0:
            found += 1
            bottom = value(slope, inverse)
            if bottom == 0:
                return None
            # the roots begin at power 112 of the step 11
            change = mul(div(value(evaluator, inverse), bottom), POWER[11 * power * (1 - 112) % 255])
            mended[power] ^= change
    if found != length or any(value(mended, POWER[root]) for root in ROOTS):
        return None
    return [on_line(element) for element in reversed(mended)]


# ---- the line


def sequence(length):
    digits = [1] * 8
    while len(digits) < 8 * length:
        m = len(digits) - 8
        digits.append((digits[m + 7] + digits[m + 5] + digits[m + 3] + digits[m]) % 2)
    return [int("".join(map(str, digits[8 * p : 8 * p + 8])), 2) for p in range(length)]


def marker(count):
    field = f"{count:023b}"
    field += str(field.count("1") % 2)
    return SYNC + [int(field[i : i + 8], 2) for i in (0, 8, 16)]


def ones(octets):
    return sum(bin(octet).count("1") for octet in octets)


class Link:
    """What both ends share."""

    def __init__(self, case):
        self.code, self.depth, self.rows, self.symbol, self.subframe_rows, self.misses, self.step, self.randomized = case
        self.width = 255 * self.depth
        self.block = self.width * self.rows
        self.subframes = self.rows // self.subframe_rows
        self.data = self.width * self.subframe_rows
        self.information = 223 if self.code == "rs16" else 255
        self.frame = self.information * self.depth
        # row and place in the row of each octet on the line, as (row, column, octet) are met
        self.sources = []
        columns = self.width // self.symbol
        for column in range(columns):
            for row in range(self.rows):
                at = (column + row * self.step) % columns * self.symbol
                self.sources += [(row, at + e) for e in range(self.symbol)]
        self.masks = sequence(self.block) if self.randomized else [0] * self.block

    def encoded(self, frame):
        if self.code == "bare":
            return list(frame)
        words = [encode_word(list(frame[w :: self.depth])) for w in range(self.depth)]
        return [words[q % self.depth][q // self.depth] for q in range(self.width)]

    def mended(self, row):
        """The row after mending, and the first word that is not mended."""
        if self.code == "bare":
            return list(row), None
        after, first = list(row), None
        for w in range(self.depth):
            word = mend_word(list(row[w :: self.depth]))
            if word is not None:
                after[w :: self.depth] = word
            elif first is None:
                first = w
        return after, first

    def line(self, rows):
        data = [rows[row][q] ^ mask for (row, q), mask in zip(self.sources, self.masks)]
        return [x for j in range(self.subframes) for x in marker(j) + data[j * self.data : (j + 1) * self.data]]


# ---- the receiver


class Receiver:
    def __init__(self, link):
        self.link = link
        self.heard = []  # hunting: all octets since the hunt began
        self.expected = None  # locked: the count of the last marker, read or expected
        self.since = []  # locked: the octets since that marker
        self.missed = 0
        self.block = None  # the data octets of the block in progress
        self.after_lock = False
        self.waiting = []  # rows that wait
        self.gap = 0
        self.shown = None

    def lock(self, count):
        self.expected, self.since = count, []
        if count == 0:
            self.block = 0

    def feed(self, memory, octets):
        if len(memory) != self.link.block:
            return 11
        if self.waiting:
            return 15
        self.shown = None
        for taken, octet in enumerate(octets, 1):
            report = self.octet(memory, octet)
            if report or self.waiting:
                return taken, report
        return len(octets), None

    def octet(self, memory, octet):
        if self.expected is None:
            return self.hunt(octet)
        self.since.append(octet)
        if len(self.since) <= self.link.data:
            if self.block is not None:
                row, q = self.link.sources[self.block]
                memory[row * self.link.width + q] = octet ^ self.link.masks[self.block]
                self.block += 1
                if self.block == self.link.block:
                    self.waiting = list(range(self.link.rows))
                    self.gap, self.after_lock, self.block = int(self.after_lock), False, None
            return None
        if len(self.since) < self.link.data + 7:
            return None
        return self.judge(self.since[self.link.data :])

    def hunt(self, octet):
        self.heard.append(octet)
        last = self.heard[-7:]
        if len(last) < 7 or last[:4] != SYNC or ones(last[4:]) % 2:
            return None
        count = (last[4] << 16 | last[5] << 8 | last[6]) >> 1
        if count >= self.link.subframes:
            return None
        self.missed, self.after_lock, self.block = 0, True, None
        self.lock(count)
        return 1, count, 0, 0

    def judge(self, found):
        count = (self.expected + 1) % self.link.subframes
        right = marker(count)
        digits = ones([a ^ b for a, b in zip(found, right)])
        if digits == 0:
            self.missed = 0
            self.lock(count)
            return 2, count, 0, 0
        cause = 3 if found[:4] != SYNC else 4 if ones(found[4:]) % 2 else 5
        self.missed += 1
        if self.missed < self.link.misses:
            self.lock(count)
            return cause, count, digits, 0
        self.expected, self.heard, self.block = None, [], None
        return cause, count, digits, 1

    def next(self, memory):
        if len(memory) != self.link.block:
            return 11
        if not self.waiting:
            return 16
        row = self.waiting.pop(0)
        place = slice(row * self.link.width, (row + 1) * self.link.width)
        before = memory[place]
        after, first = self.link.mended(before)
        memory[place] = after
        self.shown = row
        altered = sum(a != b for a, b in zip(before, after))
        gap, self.gap = self.gap, 0
        return row, altered, gap, first

    def show(self, memory):
        if len(memory) != self.link.block:
            return 11
        if self.shown is None:
            return 17
        return memory[self.shown * self.link.width :][: self.link.frame]


# ---- a run


class Run:
    def __init__(self, case):
        self.link = Link(case)
        self.receiver = Receiver(self.link)
        self.number, self.digest = SEED, DIGEST_START
        self.met = Counter()
        self.spare = self.octets(2041)
        self.memory, self.behind = self.spare[: self.link.block], self.spare[self.link.block]

    def draw(self):
        n = self.number
        n ^= n << 13 & 0xFFFFFFFF
        n ^= n >> 17
        n ^= n << 5 & 0xFFFFFFFF
        self.number = n
        return n >> 8

    def octets(self, length):
        return [self.draw() >> 16 for _ in range(length)]

    def see_all(self, octets):
        for octet in octets:
            self.digest = (self.digest ^ octet) * DIGEST_FACTOR % 2**64

    def see(self, *numbers):
        for number in numbers:
            self.see_all(number.to_bytes(8, "little"))

    def sent(self):
        frames = [self.octets(self.link.frame) for _ in range(5)]
        line = self.link.line([self.link.encoded(frame) for frame in frames[: self.link.rows]])
        for i in range(5):
            self.see(i if i < self.link.rows else 13)
        self.see(len(line))
        return line

    def alter(self, line, place, by):
        if place < len(line):
            line[place] ^= by % 256

    def damage(self, line):
        for _ in range(self.draw() % 10):
            place = self.draw() % 2100
            self.alter(line, place, self.draw())
        for _ in range(max(self.draw() % 6 - 2, 0)):
            place = self.draw() % 4 * (self.link.data + 7)
            place += 2 + self.draw() % 5
            kind = self.draw() % 3
            self.alter(line, place, 0x10 if kind == 0 else 0x06 if kind == 1 else self.draw())
        start = self.draw() % 2100
        for i in range(max(self.draw() % 320 - 128, 0)):
            if self.draw() % 4:
                self.alter(line, start + i, self.draw())

    def feed(self, memory, octets):
        answer = self.receiver.feed(memory, octets)
        if isinstance(answer, int):
            self.met["feed", answer] += 1
            self.see(answer)
            return 0
        taken, report = answer
        self.see(taken)
        self.see(*(report or [0]))
        self.met["report", report and (report[0], report[3])] += 1
        return taken

    def next(self, memory):
        answer = self.receiver.next(memory)
        if isinstance(answer, int):
            self.met["next", answer] += 1
            self.see(answer)
            return
        row, altered, gap, first = answer
        self.see(row, altered, gap)
        self.see(*([0] if first is None else [9, row, first]))
        self.met["row", "altered" if altered else "clean", first] += 1
        self.met["gap", gap] += 1

    def show(self, memory):
        answer = self.receiver.show(memory)
        if isinstance(answer, int):
            self.met["show", answer] += 1
            self.see(answer)
        else:
            self.met["shown"] += 1
            self.see_all(answer)

    def turn(self, line, at):
        size = self.draw() % 32
        memory = self.memory
        if size == 0:
            memory = memory + [self.behind]
        elif size == 1:
            memory = memory[:-1]
        kind = self.draw() % 64
        if kind == 0:
            self.met["lost"] += 1
            return at + 1 + self.draw() % 9
        if kind == 1:
            self.met["doubled"] += 1
            return max(at - 1 - self.draw() % 9, 0)
        if kind == 2:
            first = self.draw() % 256
            self.feed(memory, [first] + SYNC + [0, 0, self.draw() % 12, first])
            return at
        if kind <= 20:
            self.next(memory)
            return at
        if kind <= 26:
            self.show(memory)
            return at
        return at + self.feed(memory, line[at : at + self.draw() % 300])

    def block(self):
        line = self.sent()
        self.damage(line)
        at = 0
        for _ in range(TURNS):
            if at >= len(line):
                break
            at = self.turn(line, at)
        self.see_all(self.memory + [self.behind])


def main():
    met = Counter()
    for case in CASES:
        run = Run(case)
        for _ in range(BLOCKS):
            run.block()
        print(" ".join(map(str, case)) + f": {run.digest:016x}")
        met += run.met
    wanted = [("report", None), ("report", (1, 0)), ("report", (2, 0))]
    wanted += [("report", (cause, fell)) for cause in (3, 4, 5) for fell in (0, 1)]
    wanted += [("feed", 11), ("feed", 15), ("next", 11), ("next", 16), ("show", 11), ("show", 17), "shown", ("gap", 0), ("gap", 1)]
    wanted += [("row", altered, first) for altered in ("altered", "clean") for first in (None, 0, 1)][:-1]
    rare = [kind for kind in wanted if met[kind] < 5]
    assert not rare, rare
    return met


if __name__ == "__main__":
    main()
