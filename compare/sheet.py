#!/usr/bin/env python3
"""The quote sheet once more, by the rules of docs/SHEET.md and docs/FORMAT.md, sharing no code with the crates, and compared with the program quote.

    compare/sheet.py answer < SHEET          prints the answers of this program
    compare/sheet.py compare QUOTE [SEED]    runs QUOTE on sheets made from a seed and compares; exit 1 at a difference
"""
import random
import subprocess
import sys
import time

LIMIT = 65536
NAMES = ["depth", "symbol", "rows", "sub", "misses"]
CODES = {"rs16": (223, 16), "bare": (255, 0)}


def rests(parts, text):
    """Every way to go on: whether some text of the parts begins with `text`, or is all of it."""
    if not parts:
        return {"whole"} if text == b"" else set()
    head, tail = parts[0], parts[1:]
    found = set()
    for choice in choices(head, text):
        if len(choice) >= len(text):
            if choice.startswith(text):
                found.add("begins")
                if choice == text:
                    found |= rests(tail, b"")
        elif text.startswith(choice):
            found |= rests(tail, text[len(choice):])
    return found


def choices(part, text):
    """The texts of one part that could matter against `text`: all of a literal's, and of a number those that agree with it."""
    if part != "number":
        return part
    digits = bytearray()
    for octet in text[:5]:
        if not 48 <= octet <= 57:
            break
        digits.append(octet)
    out = [b"7"] if not text else []
    for n in range(1, len(digits) + 1):
        number = bytes(digits[:n])
        if number == b"0" or number[0] != 48:
            out.append(number)
    return out


def form_parts():
    parts = [[b"(link (code "], [c.encode() for c in CODES]]
    for i, name in enumerate(NAMES):
        parts += [[(") (" + name + " ").encode()], "number"]
    return parts + [[b"))"]]


PARTS = form_parts()


def misfit(line):
    """None where the line is a form's text; else the first place i such that no form's text begins with line[:i + 1], or the length."""
    if "whole" in rests(PARTS, line):
        return None
    low = 0
    while low < len(line) and rests(PARTS, line[:low + 1]):
        low += 1
    return low


def refusal(depth, symbol, rows, sub, misses):
    if depth not in (1, 2, 3, 4, 5, 8):
        return 1
    if not 1 <= rows <= 4096:
        return 2
    if symbol == 0 or (255 * depth) % symbol:
        return 3
    if sub == 0 or rows % sub:
        return 4
    if not 1 <= misses <= 255:
        return 5
    return 0


def longest_fade(reach, depth, symbol, rows):
    """The formula of docs/FORMAT.md; compare/mapping.py finds the same figure by trying every run of places."""
    whole, rest = divmod(reach * depth, symbol)
    return whole * rows * symbol + rest


def answer(line):
    place = misfit(line)
    if place is not None:
        return "(refused 18 at %d)" % place
    words = line.decode().replace("(", " ").replace(")", " ").split()
    code = words[2]
    depth, symbol, rows, sub, misses = (int(words[i]) for i in (4, 6, 8, 10, 12))
    number = refusal(depth, symbol, rows, sub, misses)
    if number:
        return "(refused %d)" % number
    information, reach = CODES[code]
    return "(quote (frame %d) (block %d) (fade %d) (resync %d))" % (
        information * depth,
        255 * depth * rows,
        longest_fade(reach, depth, symbol, rows),
        misses * (255 * depth * sub + 7),
    )


def answers(sheet):
    sheet = sheet[:LIMIT]
    lines = sheet.split(b"\n")
    if lines[-1] == b"":
        lines.pop()
    return "".join(answer(line) + "\n" for line in lines).encode()


# ---- sheets made from a seed

def number(rng):
    kind = rng.randrange(10)
    if kind < 4:
        return str(rng.choice([0, 1, 2, 3, 4, 5, 6, 7, 8, 9, 15, 17, 51, 85, 255, 256, 1024, 2040, 4096, 4097]))
    if kind < 8:
        return str(rng.randrange(100000))
    if kind == 8:
        return "0" + str(rng.randrange(100))
    return str(rng.randrange(100000, 10000000))


def form(rng):
    if rng.random() < 0.5:
        depth = rng.choice([1, 2, 3, 4, 5, 8])
        rows = rng.randrange(1, 4097)
        symbol = rng.choice([k for k in range(1, 255 * depth + 1) if 255 * depth % k == 0])
        sub = rng.choice([k for k in range(1, rows + 1) if rows % k == 0])
        numbers = [str(n) for n in (depth, symbol, rows, sub, rng.randrange(1, 256))]
        if rng.random() < 0.3:
            numbers[rng.randrange(5)] = number(rng)
    else:
        numbers = [number(rng) for _ in NAMES]
    fields = "".join(" (%s %s)" % f for f in zip(NAMES, numbers))
    return ("(link (code %s)%s)" % (rng.choice(["rs16", "bare"]), fields)).encode()


def spoil(rng, line):
    line = bytearray(line)
    for _ in range(rng.choice([0, 0, 1, 1, 2, 5])):
        at = rng.randrange(len(line) + 1)
        kind = rng.randrange(4)
        octet = rng.choice(b"() 0123456789abelrstz\x00\r\xff\t")
        if kind == 0:
            line.insert(at, octet)
        elif kind == 1 and at < len(line):
            line[at] = octet
        elif kind == 2 and at < len(line):
            del line[at]
        else:
            del line[at:]
    return bytes(line).replace(b"\n", b"")


def sheets(rng):
    yield b""
    yield b"\n"
    yield b"\n" * 70000
    yield b"(" * 70000
    yield b"\xff\x00\r\n(link"
    yield (form(rng) + b"\n") * 3000
    for _ in range(60):
        lines = [spoil(rng, form(rng)) for _ in range(rng.randrange(0, 400))]
        yield b"\n".join(lines) + rng.choice([b"", b"\n", b"\n\n"])


def compare(program, seed):
    rng = random.Random(seed)
    made = 0
    for sheet in sheets(rng):
        run = subprocess.run([program], input=sheet, stdout=subprocess.PIPE, check=True)
        want = answers(sheet)
        if run.stdout != want:
            ours, theirs = run.stdout.split(b"\n"), want.split(b"\n")
            for i, line in enumerate(sheet[:LIMIT].split(b"\n")):
                if ours[i:i + 1] != theirs[i:i + 1]:
                    print("line %r: quote answers %r, compare %r" % (line, ours[i:i + 1], theirs[i:i + 1]))
                    break
            print("the answers differ (seed %d)" % seed)
            return 1
        made += want.count(b"\n")
    sheet = (form(rng)[:60] + b"\n") * 900
    start = time.monotonic()
    subprocess.run([program], input=sheet, stdout=subprocess.PIPE, check=True)
    spent = time.monotonic() - start
    if spent > 0.1:
        print("900 lines took %.3f s, more than a tenth of a second" % spent)
        return 1
    print("sheet: %d lines answered alike, 900 lines in %.0f ms" % (made, 1000 * spent))
    return 0


if __name__ == "__main__":
    if sys.argv[1:] == ["answer"]:
        sys.stdout.buffer.write(answers(sys.stdin.buffer.read()))
    elif sys.argv[1:2] == ["compare"]:
        sys.exit(compare(sys.argv[2], int(sys.argv[3]) if len(sys.argv) > 3 else 1))
    else:
        sys.exit(__doc__)
