#!/usr/bin/env python3
"""Checks of replay.py: binary32 against exact fractions, and every bench case and worked example of 01 that a model of
the replay can express. Prints 'ok' at the end.   selftest.py [ROUNDS]"""

import random
import struct
import sys
from fractions import Fraction

import replay as m

CASE = sys.path[0] + "/../crates/replay/"
ROUNDS = int(sys.argv[1]) if len(sys.argv) > 1 else 20000


def bits(x):
    return 0x7FC00000 if x != x else struct.unpack(">I", struct.pack(">f", x))[0]


def flt(n):
    return struct.unpack(">f", struct.pack(">I", n))[0]


def nearest(q, negative_zero=False):
    """The pattern of the f32 nearest to the exact fraction q, ties to even: worked out over whole steps of 2^-149."""
    if q == 0:
        return 0x80000000 if negative_zero else 0
    sign = 0x80000000 if q < 0 else 0
    steps = abs(q) * 2**149
    # the spacing at this size, in steps: 1 below 2^24 steps, doubling with each binade
    whole = steps.numerator // steps.denominator
    shift = max(0, whole.bit_length() - 24)
    n = steps / 2**shift
    low = n.numerator // n.denominator
    rest = n - low
    if rest > Fraction(1, 2) or (rest == Fraction(1, 2) and low % 2 == 1):
        low += 1
    # low * 2^shift steps; pattern: subnormals and normals are consecutive whole numbers
    if low == 2**24:
        low, shift = 2**23, shift + 1
    pattern = low if low < 2**23 else (shift + 1) * 2**23 + (low - 2**23)
    return sign | (0x7F800000 if pattern >= 0x7F800000 else pattern)


def pick(r):
    k = r.randrange(6)
    if k == 0:
        return r.choice([0, 0x80000000, 1, 0x80000001, 0x7FFFFF, 0x800000, 0x7F7FFFFF, 0xFF7FFFFF, 0x3F800000, 0xBF800000])
    if k == 1:
        return r.randrange(0x1000000) | r.choice([0, 0x80000000])  # subnormals and the least normals
    if k == 2:
        return (r.randrange(0x70, 0x90) << 23) | r.randrange(2**23) | r.choice([0, 0x80000000])
    if k == 3:
        return (r.randrange(0xF0, 0xFF) << 23) | r.randrange(2**23) | r.choice([0, 0x80000000])
    n = r.getrandbits(32)
    return n if (n & 0x7F800000) != 0x7F800000 else n & 0x807FFFFF


def arithmetic():
    r = random.Random(20240601)
    for _ in range(ROUNDS):
        a, b = flt(pick(r)), flt(pick(r))
        x, y = Fraction(a), Fraction(b)
        neg = lambda v: struct.pack(">f", v)[0] >> 7 == 1
        assert bits(m.mul(a, b)) == nearest(x * y, neg(a) != neg(b)), (a, b)
        assert bits(m.add(a, b)) == nearest(x + y, neg(a) and neg(b)), (a, b)
        assert bits(m.sub(a, b)) == nearest(x - y, neg(a) and not neg(b)), (a, b)
        if y != 0:
            assert bits(m.div(a, b)) == nearest(x / y, neg(a) != neg(b)), (a, b)
    # quotients that lie at and beside the midpoints of subnormal results
    for _ in range(ROUNDS):
        b = flt((r.randrange(1, 0x60) << 23) | r.randrange(2**23))
        mid = Fraction(2 * r.randrange(2**r.randrange(1, 23)) + 1, 2**150)
        a0 = nearest(Fraction(b) * mid)
        for d in (-1, 0, 1):
            n = a0 + d
            if 0 < n < 0x7F800000:
                a = flt(n)
                assert bits(m.div(a, b)) == nearest(Fraction(a) / Fraction(b)), (a, b)
    inf, nan = m.INF, m.NAN
    for got, want in [
        (m.div(1.0, 0.0), inf), (m.div(-1.0, 0.0), -inf), (m.div(1.0, -0.0), -inf), (m.div(-1.0, -0.0), inf),
        (m.div(inf, 0.0), inf), (m.div(1.0, inf), 0.0), (m.mul(inf, 2.0), inf), (m.add(inf, 1.0), inf),
        (m.mul(flt(0x7F7FFFFF), 2.0), inf), (m.add(flt(0x7F7FFFFF), flt(0x7F7FFFFF)), inf),
        (m.add(flt(0x7F7FFFFF), 1.0), flt(0x7F7FFFFF)),
    ]:
        assert bits(got) == bits(want), (got, want)
    for got in [m.div(0.0, 0.0), m.div(nan, 0.0), m.mul(inf, 0.0), m.sub(inf, inf), m.div(inf, inf), m.add(nan, 1.0)]:
        assert got != got
    assert [m.cut(x) for x in (nan, -inf, -1.0, -0.0, 0.0, 0.999, 1.0, 65534.5, 65535.0, 65536.0, inf)] == \
        [0, 0, 0, 0, 0, 0, 1, 65534, 65535, 65535, 65535]


def bench():
    # 1 to 4
    assert m.ad5627_code(1.25) == 0x800
    assert m.ad5627_code(2.5) is None and m.cut(m.mul(m.div(2.5, 2.5), 4096.0)) == 4096
    assert m.ad5627_code(flt(bits(2.5) - 1)) == 4095
    assert m.ad5627_code(m.NAN) is None and m.ad5627_code(0.0) == 0 and m.ad5627_code(-0.0) == 0
    assert m.ad5627_code(-flt(1)) is None and m.ad5627_code(m.INF) is None
    # 5, 6
    assert m.dac7571_code(m.f32(3.2)) == 0x0F83 and m.dac7571_code(m.f32(1.65)) == 0x0800
    assert m.dac7571_code(m.f32(3.3)) is None and m.dac7571_code(m.NAN) == 0
    assert m.dac7571_code(flt(bits(m.f32(3.3)) - 1)) == 0xFFF and m.dac7571_code(-flt(1)) is None
    # 7, 8
    assert m.mcp3221_volts(0xF800) == m.f32(1.65) and m.ads7924_volts(0x8000) == m.f32(1.717)
    # 9, 10
    out = m.Transform(20.0, -10.0)
    assert m.ad5627_code(out.invert(15.0)) == 0x800 and out.map(m.V0_1) == -8.0
    # 12
    assert not m.late(200, 200) and m.late(201, 200) and not m.late(199, 200)
    assert m.late(0, 4294967295) and m.late(2147483847, 200) and not m.late(2147483848, 200)
    # 'Stale trip level' of document 02: both map to 290, and the code would be 564
    new = m.Transform(29.0, 0.0)
    assert out.map(15.0) == 290.0 == new.map(10.0) and m.ad5627_code(new.invert(10.0)) == 564


S = "41700000BF8000003F8000000000000041A00000C120000042000000C1200000"


def run(lines):
    data = b"tick,call,temp,alert,out,refl,dog,replies,settings\n" + "".join(x + "\n" for x in lines).encode()
    return m.replay(data).decode().split("\r\n")[1:-1]


def traces():
    up = ["0,start,41C80000,1,0,0,0,,%s2" % S, "0,startup,41C80000,1,0,0,0,,"]
    # 12: deadline 200
    assert run(up + ["200,update,41C80000,1,0,0,0,,"])[-1] == "3,0,Powerup,1,0,20"
    assert run(up + ["201,update,41C80000,1,0,0,0,,"])[-1] == "3,0,Powered,1,0,23"
    on = up + ["201,update,41C80000,1,0,0,0,,", "202,update,41C80000,1,0,0,0,,"]
    # 11: 60.0 and 5.0 degrees are no fault
    assert run(on + ["203,update,42700000,1,0,0,0,,"])[-1] == "5,0,Enabled,1,1,26"
    assert run(on + ["203,update,40A00000,1,0,0,0,,"])[-1] == "5,0,Enabled,1,1,26"
    assert run(on + ["203,update,42700001,1,0,0,0,,"])[-1] == "5,0,Blocked(OverTemperature),0,0,28"
    assert run(on + ["203,update,409FFFFF,1,0,0,0,,"])[-1] == "5,0,Blocked(UnderTemperature),0,0,28"
    # 11: input 20.0 is no trip (slope 0, offset 20.0), the next f32 is one
    s20 = S[:16] + "0000000041A00000" + S[32:] + "2"
    assert run([on[0][:-65] + s20] + on[1:] + ["203,update,41C80000,1,0,0,0,,"])[-1] == "5,0,Enabled,1,1,26"
    s20 = S[:16] + "0000000041A00001" + S[32:] + "2"
    assert run([on[0][:-65] + s20] + on[1:] + ["203,update,41C80000,1,0,0,0,,"])[-1] == "5,0,Tripped(Input),1,0,27"
    # 10: threshold -8 equals map(0.1): enabling halts; just below it nothing happens; just above it enables
    for pattern, want in (("C1000000", "4,14,Halted,0,0,25"), ("C1000001", "4,0,Powered,1,0,23"), ("C0FFFFFF", "4,0,Enabled,1,1,25")):
        assert run([on[0][:-65] + pattern + S[8:] + "2"] + on[1:])[-1] == want, (pattern, run([on[0][:-65] + pattern + S[8:] + "2"] + on[1:]))
    # 2, 3 through a start: threshold 40.0 is 2.5 V
    assert run(["0,start,-,0,0,0,0,,42200000%s2" % S[8:]]) == ["1,14,Halted,0,0,18"]
    assert run(["0,start,-,0,0,0,0,,421FFFFF%s2" % S[8:]]) == ["1,0,Off,0,0,18"]
    # the whole case
    with open(CASE + "stdin", "rb") as f, open(CASE + "stdout", "rb") as g:
        assert m.replay(f.read()) == g.read()


arithmetic()
bench()
traces()
print("ok")
