#!/usr/bin/env python3
"""sqrt.py: write the vectors of crates/test_sqrt, its stdin and stdout.

A record is 24 bytes: the bit pattern of an f64, that of its root and the root's remainder in two's complement, most significant byte first.
Both are found from whole numbers, by math.isqrt; the root is compared with math.sqrt afterwards, and the remainder with exact fractions. A NaN
is written 7FF8000000000000. The same list comes out each time.
"""
import math, os, random, struct
from fractions import Fraction

NAN, INF, SIGN, HID = 0x7FF8000000000000, 0x7FF0000000000000, 1 << 63, 1 << 52

def parts(b):
    """m, e of the finite pattern b, which is m * 2^e"""
    x, t = b >> 52 & 2047, b % HID
    return (t + HID, x - 1075) if x else (t, -1074)

def root(b):
    """the pattern of the root of b, and its remainder"""
    if b % SIGN > INF: return NAN, 0
    if b % SIGN == 0: return b, 0
    if b & SIGN: return NAN, 0
    if b == INF: return INF, 0
    m, e = parts(b)
    # S = m * 2^(e - 2k), of 105 or 106 binary digits: its root has 53
    k = (m.bit_length() + e + 1) // 2 - 53
    s = m << e - 2 * k
    assert 104 < s.bit_length() < 107
    r = math.isqrt(s)
    if s - r * r > r: r += 1    # above r + 1/2, whose square is r * r + r + 1/4: no tie
    return (k + 1074) * HID + r, s - r * r

def hardware(b):
    """the same by the machine's root: (x - root^2) / 4^k, where the root is R * 2^k with R of 53 digits"""
    x, = struct.unpack('>d', b.to_bytes(8, 'big'))
    if math.isnan(x) or x < 0: return NAN, 0
    y = math.sqrt(x)
    r = int.from_bytes(struct.pack('>d', y), 'big')
    if x == 0 or math.isinf(x): return r, 0
    rest = (Fraction(x) - Fraction(y) ** 2) / Fraction(4) ** parts(r)[1]
    assert rest.denominator == 1
    return r, rest.numerator

def scaled(n, e):
    """the pattern of n * 2^e, for an n of at most 53 digits that gives a normal number"""
    up = 53 - n.bit_length()
    return (e - up + 1074) * HID + (n << up)

def odd_roots(a, bits):
    """the odd numbers below 2^bits with a square that is a modulo 2^bits, for an a that is 1 modulo 8"""
    y = 1
    for i in range(3, bits):
        if (y * y - a) >> i & 1: y += 1 << i - 1
    half, whole = 1 << bits - 1, 1 << bits
    return sorted({y % whole, -y % whole, (y + half) % whole, (half - y) % whole})

def midpoints(reach):
    """S with R * R + R - c = S, c near 0: the root of S lies as near to R + 1/2 as it can, for S a multiple of 2^52 or, of 106 digits, of 2^53"""
    for c in range(-reach, reach + 1, 2):
        for odd in 0, 1:
            # 4 * S = (2 * R + 1)^2 - 1 - 4 * c has its low 54 or 55 bits clear
            for y in odd_roots(1 + 4 * c, 54 + odd):
                for r in y // 2, y // 2 + (1 << 53 + odd - 1):
                    s = r * r + r - c
                    if HID <= r < 2 * HID and s.bit_length() == 105 + odd and s % (HID << odd) == 0:
                        yield s >> 52 + odd, odd

def vectors():
    rand = random.Random(754)
    # document 01's
    yield from [0, 0x4022000000000000, 0x4000000000000000, 1, 0x7FEFFFFFFFFFFFFF]
    # zeros, infinities, NaNs of either kind and sign, negatives
    yield from [SIGN, INF, INF | SIGN, NAN, NAN | SIGN, INF + 1, SIGN | INF + 1, 2 * SIGN - 1, SIGN - 1]
    for b in 1, HID - 1, HID, 0x3FF0000000000000, 0x4000000000000000, 0x7FEFFFFFFFFFFFFF: yield b | SIGN
    for _ in range(64): yield rand.randrange(SIGN, SIGN + INF)
    # every exponent, subnormals among them: at its first and last, and at one between
    for x in range(2047):
        yield x * HID + rand.randrange(HID)
        if x % 2 == 0: yield from [x * HID, x * HID + 1]
        else: yield from [x * HID + HID - 1, x * HID + HID - 2]
    # subnormals of every length
    for i in range(52):
        yield from [1 << i, (1 << i) + 1, (2 << i) - 1, rand.randrange(1 << i, 2 << i)]
    # as near to a midpoint between two f64s as an f64's root comes, from either side
    for m, odd in midpoints(120):
        yield m + (2 * rand.randrange(1022) + odd) * HID
    # squares of whole numbers, exact, at even exponents, and their neighbours
    for i in list(range(1, 41)) + [rand.randrange(1 << 25, 1 << 26) for _ in range(120)] + [(1 << 26) - 1]:
        b = scaled(i * i, 2 * rand.randrange(-510, 480))
        yield from [b - 1, b, b + 1]
    # around 1, 2 and 4
    for x in 0x3FF, 0x400, 0x401:
        for d in range(-8, 9): yield x * HID + d
    # any pattern
    for _ in range(300): yield rand.getrandbits(64)

def main():
    here = os.path.join(os.path.dirname(os.path.abspath(__file__)), '..', '..', 'crates', 'test_sqrt')
    records, seen = [], set()
    for b in vectors():
        assert 0 <= b < 2 * SIGN
        if b in seen: continue
        seen.add(b)
        r = root(b)
        assert r == hardware(b), '%016x: %s, %s' % (b, r, hardware(b))
        records.append(b.to_bytes(8, 'big') + r[0].to_bytes(8, 'big') + r[1].to_bytes(8, 'big', signed=True))
    assert [root(b)[0] for b in (0, 0x4022 << 48, 0x4000 << 48, 1, 0x7FEFFFFFFFFFFFFF)] == [0, 0x4008 << 48, 0x3FF6A09E667F3BCD, (1023 - 537) << 52, 0x5FEFFFFFFFFFFFFF]
    assert {b >> 52 for b in seen if b < INF} == set(range(2047)) and 4096 <= len(records) <= 8192
    open(os.path.join(here, 'stdin'), 'wb').write(b''.join(records))
    open(os.path.join(here, 'stdout'), 'w').write('%d roots, 0 wrong\n' % len(records))

if __name__ == '__main__': main()
