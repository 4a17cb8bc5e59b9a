#!/usr/bin/env python3
"""Prints what the tests of crates/link must find: for each case the digest of a line, its octets and the draws refused.

Written apart from the verified code: the whole line is made as one list by the rules of docs/FORMAT.md, with no memory, and is then
cut as the draws of the tests cut it. The code is bare, so a frame is its row.

    depth rows symbol subframe-rows step randomized: digest octets refused"""

CASES = [(1, 2, 5, 1, 0, 0), (2, 12, 17, 3, 0, 1), (3, 4, 9, 2, 7, 1), (5, 2, 255, 2, 200, 0), (8, 3, 2040, 1, 0, 1)]
BLOCKS, TURNS = 2, 400
DIGEST_START, DIGEST_FACTOR = 0xCBF29CE484222325, 0x100000001B3


def sequence(length):
    digits = [1] * 8
    while len(digits) < 8 * length:
        m = len(digits) - 8
        digits.append((digits[m + 7] + digits[m + 5] + digits[m + 3] + digits[m]) % 2)
    return [int("".join(map(str, digits[8 * p : 8 * p + 8])), 2) for p in range(length)]


def marker(count):
    field = f"{count:023b}"
    field += str(field.count("1") % 2)
    return list(bytes.fromhex("1ACFFC1D")) + [int(field[i : i + 8], 2) for i in (0, 8, 16)]


def block_line(case, rows):
    depth, n, symbol, subframe_rows, step, randomized = case
    columns = 255 * depth // symbol
    data = []
    for s in range(n * columns):
        row, column = s % n, s // n
        if step:
            column = (column + row * step) % columns
        data += rows[row][column * symbol : (column + 1) * symbol]
    if randomized:
        data = [x ^ y for x, y in zip(data, sequence(len(data)))]
    size = 255 * depth * subframe_rows
    return [x for j in range(n // subframe_rows) for x in marker(j) + data[j * size : (j + 1) * size]]


def case_figures(case):
    depth, n = case[0], case[1]
    number, digest, octets, refused = 0x1ACFFC1D, DIGEST_START, 0, 0
    for _ in range(BLOCKS):
        rows = []
        for _ in range(n):
            row = []
            for _ in range(255 * depth):
                number ^= number << 13 & 0xFFFFFFFF
                number ^= number >> 17
                number ^= number << 5 & 0xFFFFFFFF
                row.append(number >> 24)
            rows.append(row)
        line = block_line(case, rows)
        for octet in line:
            digest = (digest ^ octet) * DIGEST_FACTOR % 2**64
        octets += len(line)
        left = len(line)
        for turn in range(TURNS):
            if left == 0:
                refused += 1
            else:
                left -= min(left, (turn * 41 + 1) % 127)
        assert left == 0
    return digest, octets, refused


for case in CASES:
    digest, octets, refused = case_figures(case)
    print(" ".join(map(str, case)) + f": {digest:016x} {octets} {refused}")
