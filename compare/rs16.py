#!/usr/bin/env python3
"""Writes what crates/vectors must print, by an implementation of its own: `compare/rs16.py > crates/vectors/stdout`.

Written apart from the verified code: logarithm tables, the generator multiplied out from its roots, a shift register on
field elements, and syndromes by Horner's rule on the whole word. Words are mended by Berlekamp and Massey's algorithm, a trial
of every place and a linear system for the values, with the syndromes of the answer as the last check."""

ROWS = 1000
DIGEST_START, DIGEST_FACTOR = 0xCBF29CE484222325, 0x100000001B3
LINE_BASIS = [0x8D, 0xEF, 0xEC, 0x86, 0xFA, 0x99, 0xAF, 0x7B]

power, logarithm = [0] * 510, [0] * 256
x = 1
for i in range(255):
    power[i] = power[i + 255] = x
    logarithm[x] = i
    x <<= 1
    if x & 0x100:
        x ^= 0x187


def product(a, b):
    return power[logarithm[a] + logarithm[b]] if a and b else 0


line_octet = [0] * 256
for a in range(256):
    for digit, octet in enumerate(LINE_BASIS):
        if a >> (7 - digit) & 1:
            line_octet[a] ^= octet
element = [line_octet.index(octet) for octet in range(256)]

roots = [power[11 * i % 255] for i in range(112, 144)]
generator = [1]
for root in roots:
    wider = generator + [0]
    for k, c in enumerate(generator):
        wider[k + 1] ^= product(c, root)
    generator = wider


def checks(information):
    register = [0] * 32
    for octet in information:
        f = element[octet] ^ register[0]
        register = [r ^ product(f, c) for r, c in zip(register[1:] + [0], generator[1:])]
    return [line_octet[e] for e in register]


def syndromes(word):
    values = []
    for root in roots:
        value = 0
        for octet in word:
            value = product(value, root) ^ element[octet]
        values.append(value)
    return values


def digest(before, octets):
    for octet in octets:
        before = (before ^ octet) * DIGEST_FACTOR % 2**64
    return before


def inverse(a):
    return power[255 - logarithm[a]]


def locator_polynomial(s):
    """The shortest recurrence of the syndromes, and its length."""
    now, before, length, gap, last = [1], [1], 0, 1, 1
    for n in range(32):
        d = s[n]
        for i in range(1, min(length + 1, len(now))):
            d ^= product(now[i], s[n - i])
        if d == 0:
            gap += 1
            continue
        wider = now + [0] * (len(before) + gap - len(now))
        f = product(d, inverse(last))
        for i, c in enumerate(before):
            wider[i + gap] ^= product(f, c)
        if 2 * length <= n:
            before, last, gap, length = now, d, 1, n + 1 - length
        else:
            gap += 1
        now = wider
    while now[-1] == 0:
        now.pop()
    return now, length


def solved(rows):
    """The unknowns of a linear system, a row for each equation with its right side last."""
    n = len(rows)
    for i in range(n):
        p = next(r for r in range(i, n) if rows[r][i])
        rows[i], rows[p] = rows[p], rows[i]
        f = inverse(rows[i][i])
        rows[i] = [product(f, c) for c in rows[i]]
        for r in range(n):
            if r != i and rows[r][i]:
                rows[r] = [a ^ product(rows[r][i], c) for a, c in zip(rows[r], rows[i])]
    return [row[-1] for row in rows]


def mended(word):
    """The codeword within 16 octets, or None."""
    s = syndromes(word)
    if not any(s):
        return word
    polynomial, length = locator_polynomial(s)
    if length > 16 or len(polynomial) != length + 1:
        return None
    found = []
    for k in range(255):
        x, value = inverse(power[11 * k % 255]), 0
        for c in reversed(polynomial):
            value = product(value, x) ^ c
        if value == 0:
            found.append(k)
    if len(found) != length:
        return None
    weights = solved([[power[11 * k * m % 255] for k in found] + [s[m]] for m in range(length)])
    new = list(word)
    for k, weight in zip(found, weights):
        new[254 - k] ^= line_octet[product(weight, inverse(power[11 * 112 * k % 255]))]
    return None if any(syndromes(new)) else new


def advanced(number):
    number ^= number << 13 & 0xFFFFFFFF
    number ^= number >> 17
    return number ^ number << 5 & 0xFFFFFFFF


def filled(number, size):
    row = []
    for _ in range(size):
        number = advanced(number)
        row.append(number >> 24)
    return row, number


def encode(row, depth):
    for word in range(depth):
        row[223 * depth + word :: depth] = checks(row[word : 223 * depth : depth])


def alter(row, depth, word, number):
    kind, number = advanced(number) >> 30, advanced(number)
    number = advanced(number)
    many = (number >> 8) % 21
    number = advanced(number)
    start = (number >> 8) % 255
    for i in range(many):
        number = advanced(number)
        place = [number >> 8, start + i, start + 17 * i, start + 16 * i][kind] % 255
        row[place * depth + word] ^= number >> 24
    return number


for depth in [1, 2, 3, 4, 5, 8]:
    number, of_syndromes, of_rows = 0x1ACFFC1D, DIGEST_START, DIGEST_START
    for _ in range(ROWS):
        row, number = filled(number, 255 * depth)
        for word in range(depth):
            of_syndromes = digest(of_syndromes, [0] + syndromes(row[word::depth]))
        encode(row, depth)
        of_rows = digest(of_rows, row)
    print(f"depth {depth}: syndromes {of_syndromes:016x}, encoded {of_rows:016x}, refused 0", flush=True)

for depth in [1, 2, 3, 4, 5, 8]:
    number, of_answers, of_rows, right, refused = 0x352EF853, DIGEST_START, DIGEST_START, 0, 0
    for i in range(ROWS):
        row, number = filled(number, 255 * depth)
        if i % 8 != 7:
            encode(row, depth)
        for word in range(depth):
            number = alter(row, depth, word, number)
        for word in range(depth):
            old = row[word::depth]
            new = mended(old)
            if new is None:
                refused, answer = refused + 1, 256 + 9
            else:
                right, answer = right + 1, sum(a != b for a, b in zip(old, new))
                row[word::depth] = new
            of_answers = digest(of_answers, [answer])
        of_rows = digest(of_rows, row)
    print(f"depth {depth}: answers {of_answers:016x}, mended {of_rows:016x}, words mended {right}, refused {refused}", flush=True)
