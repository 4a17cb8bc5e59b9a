#!/usr/bin/env python3
"""The mappings and the randomizer once more, by the rules of docs/FORMAT.md, sharing no code with the crates.

    compare/mapping.py lines             prints what the program walk prints: digests of whole blocks' lines
    compare/mapping.py fades QUOTE       tries every run of places of many small blocks, and compares with the fades that QUOTE prints
"""
import subprocess
import sys

CASES = [(1, 2, 5, 0), (1, 2, 5, 1), (5, 64, 5, 0), (5, 64, 5, 7), (4, 10, 17, 61), (2, 3, 255, 255), (3, 1, 765, 2), (8, 100, 1, 200), (8, 512, 8, 0)]


def sequence():
    digits = [1] * 8
    for m in range(255 * 8 - 8):
        digits.append((digits[m + 7] + digits[m + 5] + digits[m + 3] + digits[m]) % 2)
    return [int("".join(map(str, digits[8 * p:8 * p + 8])), 2) for p in range(255)]


def sources(depth, rows, symbol, step):
    """Where each line place comes from, row by row and symbol by symbol: the line takes one symbol of each row in turn."""
    columns = 255 * depth // symbol
    out = []
    for turn in range(columns):
        for row in range(rows):
            first = row * 255 * depth + (turn + row * step) % columns * symbol
            out.extend(range(first, first + symbol))
    return out


def digest(line):
    total = 2166136261
    for octet in line:
        total = (total ^ octet) * 16777619 & 0xFFFFFFFF
    return total


def lines():
    mask = sequence()
    for depth, rows, symbol, step in CASES:
        size = 255 * depth * rows
        memory = [(q * 2654435761 & (1 << 64) - 1) // 65536 % 256 for q in range(size)]
        plain = [memory[q] for q in sources(depth, rows, symbol, step)]
        layered = [octet ^ mask[p % 255] for p, octet in enumerate(plain)]
        print("%d %d %d %d: %d octets, %d %d, written alike, stored alike" % (depth, rows, symbol, step, size, digest(plain), digest(layered)))


def longest(words, reach):
    """The most places in a row, from any place on, of which no word has more than `reach`: a window that slides along the line."""
    best, start, held = len(words), 0, {}
    for end, word in enumerate(words):
        held[word] = held.get(word, 0) + 1
        if held[word] > reach:
            # the shortest run that ends here and holds too many of this word
            while True:
                gone = words[start]
                held[gone] -= 1
                start += 1
                if gone == word:
                    break
            best = min(best, end - start + 1)
    return best


def fades(program):
    tried = 0
    for depth in (1, 2, 3, 5):
        for rows in (1, 2, 3, 7):
            for symbol in [k for k in range(1, 255 * depth + 1) if 255 * depth % k == 0]:
                want = longest([(q // (255 * depth), q % depth) for q in sources(depth, rows, symbol, 0)], 16)
                line = "(link (code rs16) (depth %d) (symbol %d) (rows %d) (sub 1) (misses 1))\n" % (depth, symbol, rows)
                answer = subprocess.run([program], input=line.encode(), stdout=subprocess.PIPE, check=True).stdout.decode()
                if "(fade %d)" % want not in answer:
                    print("%s%s: the longest fade, by trial, is %d" % (line, answer, want))
                    return 1
                tried += 1
    print("fades: %d links, the quoted fade is the longest that any trial of runs allows" % tried)
    return 0


if __name__ == "__main__":
    if sys.argv[1:] == ["lines"]:
        lines()
    elif sys.argv[1:2] == ["fades"]:
        sys.exit(fades(sys.argv[2]))
    else:
        sys.exit(__doc__)
