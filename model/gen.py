#!/usr/bin/env python3
"""A random trace on standard output.   gen.py SEED LINES > trace.csv

The same seed and number of lines give the same bytes. The generator runs the model beside it, to know in which state the
channel is and which deadline stands: so calls are mostly plausible, ticks fall at and beside deadlines, and readings at and
beside the input's trip level. Some lines are damaged. One trace in eight begins with some 200 starts that nearly fill the log, so
that answer 5 comes within 500 lines; the others fill it after 1,000 lines and more. Many traces of 400 to 600 lines show more
than one long one.
"""

import random
import struct
import sys

import replay as m

HEXES = "0123456789ABCDEF"
PLAIN = b"tick,call,temp,alert,out,refl,dog,replies,settings"


def pattern(x):
    return struct.unpack(">I", struct.pack(">f", x))[0]


def digits(n):
    return "%08X" % (n & 0xFFFFFFFF)


def near(r, x):
    """The pattern of x or of a neighbour."""
    n = pattern(m.f32(x))
    return digits(n + r.choice([-1, 0, 0, 0, 1]))


ODD = ["7FC00000", "FFC00000", "7F800001", "FFFFFFFF", "7F800000", "FF800000", "00000000", "80000000", "00000001", "80000001",
       "007FFFFF", "00800000", "7F7FFFFF", "FF7FFFFF", "3F800000", "BF800000", "7E800000", "FE800000"]


class Gen:
    def __init__(self, seed):
        self.r = random.Random("trace %d" % seed)
        r = self.r
        self.run = m.Replay()
        self.tick = r.choice([0, 0, 1000, 2**31 - 300, 2**32 - 700, 2**32 - 100, r.getrandbits(32)])
        # a trace's character
        self.p_bad = r.choice([0.0, 0.03, 0.06, 0.06, 0.3])
        self.p_fail = r.choice([0.0, 0.02, 0.05, 0.15])
        self.p_odd = r.choice([0.0, 0.05, 0.1, 0.35])
        self.p_fault = r.choice([0.0, 0.03, 0.08, 0.2])
        self.p_wild_tick = r.choice([0.0, 0.02, 0.1])
        self.hungry = r.random() < 0.12  # begins with starts that use up most of the log
        self.last = self.base()  # the settings typed last, eight floats and a state

    # -- settings

    def base(self):
        return ["41700000", "BF800000", "3F800000", "00000000", "41A00000", "C1200000", "42000000", "C1200000", "2"]

    def field(self, i):
        r = self.r
        if r.random() < self.p_odd:
            return r.choice(ODD) if r.random() < 0.8 else digits(r.getrandbits(32))
        out = m.Transform(m.of_pattern(self.last[4]), m.of_pattern(self.last[5]))
        if i == 0:  # threshold: at and beside 0 V, 2.5 V, the 100 mV level, and within
            x = r.choice([15.0, 12.0, 10.0, out.map(m.V0_1), out.map(0.0), out.map(2.5), r.uniform(-12.0, 42.0)])
        elif i == 1:
            x = r.choice([-1.0, -1.25, -2.0, -m.V3_2, -m.V3_3, 0.0, 1.0, r.uniform(-3.4, 0.1)])
        elif i == 2:
            x = r.choice([1.0, 20.0, 0.0, 10.0, -20.0, r.uniform(0.5, 30.0)])
        elif i == 3:
            x = r.choice([0.0, -10.0, 20.0, r.uniform(-20.0, 20.0)])
        elif i == 4:
            x = r.choice([20.0, 29.0, 16.0, -20.0, r.uniform(10.0, 40.0)])
        elif i == 5:
            x = r.choice([-10.0, 0.0, -20.0, r.uniform(-20.0, 5.0)])
        elif i == 6:
            x = r.choice([32.0, 20.0, 16.0, 40.0, 1.0, r.uniform(10.0, 40.0)])
        else:
            x = r.choice([-10.0, 0.0, -20.0, 30.0, r.uniform(-20.0, 30.0)])
        if x != x or x in (m.INF, -m.INF):
            return r.choice(ODD)
        return near(r, x)

    def settings(self, start):
        r = self.r
        k = r.random()
        new = list(self.last)
        if k < (0.5 if start else 0.15):
            new = self.base()
        elif k < 0.25:
            pass  # the same once more
        elif k < 0.35:  # zeros of the other sign
            new = [{"00000000": "80000000", "80000000": "00000000"}.get(x, x) for x in new]
        elif k < 0.42:  # 290 by another way
            new[0], new[4], new[5] = r.choice([("41700000", "41A00000", "C1200000"), ("41200000", "41E80000", "00000000")])
        else:
            for _ in range(r.choice([1, 1, 1, 2, 3])):
                i = r.randrange(8)
                new[i] = self.field(i)
        if r.random() < 0.5:
            new[8] = r.choice(["0", "1", "2", "2", "2"]) if not start else r.choice(["2", "2", "2", "1", "0"])
        self.last = new
        return "".join(new)

    # -- what is given

    def temp(self, call):
        r = self.r
        if call not in ("update", "status"):
            return r.choice(["41C80000"] * 6 + ["-", "7FC00000", "42F00000", digits(r.getrandbits(32))])
        k = r.random()
        if k < self.p_fault:
            return r.choice([digits(pattern(60.0) + 1), digits(pattern(5.0) - 1), "42C80000", "00000000", "80000000", "C1200000", "00000001",
                             "7F7FFFFF", "FF7FFFFF"])
        if k < self.p_fault * 1.4 + 0.01:
            return r.choice(["7FC00000", "FFC00000", "7F800000", "FF800000", "7F800001", "FFFFFFFF"])
        if k < self.p_fault * 1.7 + 0.02:
            return "-"
        return r.choice(["41C80000"] * 5 + ["42700000", "40A00000", digits(pattern(60.0) - 1), digits(pattern(5.0) + 1), near(r, r.uniform(6.0, 59.0))])

    def next_tick(self):
        r = self.r
        here = self.run.rack.slots[0]
        if r.random() < self.p_wild_tick:
            return r.choice([0, 1, 2**31 - 1, 2**31, 2**32 - 1, r.getrandbits(32), (self.tick - r.randrange(700)) % 2**32])
        if isinstance(here, m.Channel) and here.state in ("Powerup", "Powerdown") and r.random() < 0.7:
            d = r.choice([-200, -1, 0, 0, 1, 1, 1, 1, 2, 300] + ([2**31 - 1, 2**31, -2**31 + 1] if r.random() < 0.15 else []))
            return (here.detail + d) % 2**32
        return (self.tick + r.choice([0, 0, 1, 1, 1, 10, 100, 199, 200, 201, 499, 500, 501, 1000, r.randrange(5000)])) % 2**32

    def replies(self, call):
        r = self.r
        k = r.random()
        if self.hungry and call == "start" and self.run.rack.log.free() > 120:
            return "00" * 126 + "01"
        if k < self.p_fail * (3 if call == "start" else 1):
            n = r.choice([11, 12, 13, 14, 15, r.randrange(1, 16)]) if call == "start" else r.choice([1, 1, 1, 2, 3, 4, 5])
            data = bytearray(9 * (n - 1) + r.choice([1, 1, 9]))
            data[9 * (n - 1)] = r.choice([1, 2, 0x80, 0xFF, r.randrange(1, 256)])
            return data.hex().upper()
        if k < self.p_fail + 0.35:  # acknowledged, with data
            data = bytearray()
            for _ in range(15):
                data += b"\0" + r.randbytes(8)
            if call == "start":
                b = r.randrange(256)
                if r.random() < 0.9:
                    b = (b & 15) | ((~b & r.randrange(16)) << 4)  # no alarm
                data[9 * 9 + 1] = b & 255
            if call == "update":
                here = self.run.rack.slots[0]
                if isinstance(here, m.Channel) and r.random() < 0.6:  # a reading beside 20 dBm
                    volts = here.settings.input.invert(20.0)
                    if volts == volts and 0.0 <= volts <= 3.3:
                        code = (int(volts / 3.3 * 4096) + r.choice([-1, 0, 0, 1, 2])) % 4096
                        data[1:3] = struct.pack(">H", code | r.choice([0, 0, 0xF000, 0x5000]))
            return bytes(data[:r.choice([135, 135, 3, 9, 18, 45, r.randrange(136)])]).hex().upper()
        if k < self.p_fail + 0.36:
            return r.randbytes(r.randrange(136)).hex().upper()
        return ""

    def call(self):
        r = self.r
        here = self.run.rack.slots[0]
        if not isinstance(here, m.Channel):
            if self.hungry and self.run.rack.log.free() > 120:
                return "start"
            return r.choice(["start"] * 8 + ["startup", "update", "reset", "standby", "settings", "status"])
        weights = {
            "Off": {"startup": 8, "reset": 5, "settings": 5, "update": 4, "status": 2, "standby": 2, "start": 1},
            "Powerup": {"update": 14, "settings": 3, "standby": 2, "reset": 1, "startup": 1, "status": 1, "start": 1},
            "Powered": {"update": 12, "settings": 5, "standby": 2, "reset": 2, "startup": 1, "status": 2, "start": 1},
            "Enabled": {"update": 12, "settings": 7, "standby": 2, "reset": 2, "startup": 1, "status": 3, "start": 1},
            "Tripped": {"reset": 6, "update": 3, "settings": 5, "startup": 3, "standby": 2, "status": 2, "start": 1},
            "Powerdown": {"update": 14, "settings": 3, "standby": 2, "reset": 1, "startup": 1, "status": 1, "start": 1},
            "Blocked": {"update": 8, "settings": 4, "standby": 2, "reset": 2, "startup": 2, "status": 4, "start": 1},
        }[here.state]
        return r.choices(list(weights), list(weights.values()))[0]

    def good_line(self):
        r = self.r
        call = self.call()
        tick = self.next_tick()
        temp = self.temp(call)
        here = self.run.rack.slots[0]
        if isinstance(here, m.Channel) and here.state == "Blocked" and call == "update" and r.random() < 0.25:
            temp = "-"  # the way out of Blocked
        p = 0.15 if isinstance(here, m.Channel) and here.state == "Enabled" else 0.06
        pins = [1 if r.random() >= self.p_fault / 2 else 0, int(r.random() < p), int(r.random() < p), int(r.random() < 0.06)]
        settings = self.settings(call == "start") if call in ("start", "settings") else ""
        zeros = r.choice(["", "", "", "", "", "0", "000000"])
        line = "%s%d,%s,%s,%d,%d,%d,%d,%s,%s" % (zeros, tick, call, temp, *pins, self.replies(call), settings)
        self.tick = tick
        line = line.encode()
        if r.random() < 0.02:
            line = b"0" * (r.choice([511, 512, 512, 513, 514]) - len(line)) + line
        return line

    def damaged(self, line):
        """Mostly bad afterwards, not always: the model decides."""
        r = self.r
        columns = line.split(b",")
        k = r.randrange(17)
        if k == 0:
            return b""
        if k == 1:  # a byte replaced
            i = r.randrange(len(line))
            return line[:i] + bytes([r.choice([x for x in range(256) if x != 10])]) + line[i + 1:]
        if k == 2:  # a byte too many
            i = r.randrange(len(line) + 1)
            return line[:i] + bytes([r.choice([0, 9, 13, 32, 34, 44, 48, 65, 97, 127, 128, 195, 255])]) + line[i:]
        if k == 3:  # a byte lost
            i = r.randrange(len(line))
            return line[:i] + line[i + 1:]
        if k == 4:
            del columns[r.randrange(len(columns))]
        elif k == 5:
            columns.insert(r.randrange(len(columns) + 1), r.choice([b"", b"0", b"1"]))
        elif k == 6:
            columns[r.randrange(len(columns))] = b""
        elif k == 7:
            i = r.randrange(len(columns))
            columns[i] = columns[i].lower()
        elif k == 8:
            i = r.randrange(len(columns))
            columns[i] = columns[i].upper()
        elif k == 9:
            columns[0] = r.choice([b"4294967296", b"4294967295", b"99999999999", b"-1", b"+1", b"", b" 1", b"1 ", b"1.0", b"0x1", b"18446744073709551616",
                                   b"0" * 300 + b"7", b"9" * 300])
        elif k == 10:
            columns[2] = r.choice([b"--", b"", b"41C8000", b"41C800000", b"41c80000", b"-", b" ", b"nan", b"0", b"-0000000"])
        elif k == 11:
            columns[r.randrange(3, min(7, len(columns)))] = r.choice([b"2", b"00", b"01", b"-", b" ", b"", b"1 ", b"\x00", b"\x01"])
        elif k == 12 and len(columns) > 7:
            columns[7] = r.choice([b"0", b"000", b"00" * 135, b"00" * 136, b"0" * 271, b"0" * 269, b"gg", b"ab", b"0X", b"00 ", b"A" * 270])
        elif k == 13 and len(columns) > 8:
            columns[8] = r.choice([columns[8][:-1], columns[8] + b"0", b"".join([columns[8][:-1], b"3"]), b"0" * 65, b"", b" ", b"-"])
        elif k == 14:
            return b",".join(columns) + r.choice([b"\r", b"\r\r", b" ", b"\x00", b"\t", b"\x0b", b"\x1a"])
        elif k == 15:
            return r.choice([b"7", b",", b"A", b"\x00", b"\r", b"0,update,"]) * r.choice([1, 8, 100, 511, 512, 513, 514, 515, 600, 5000])
        else:
            line = b",".join(columns)
            size = r.choice([510, 511, 512, 513, 514, 515, 600, 2000])
            line = b"0" * (size - len(line)) + line
            return line + r.choice([b"", b"", b"\r", b"\rX", b"\r" * 5])
        return b",".join(columns)

    def trace(self, lines):
        r = self.r
        out = [r.choice([PLAIN, PLAIN, b"", b"\xef\xbb\xbfodd", b"0,start,41C80000,1,0,0,0,," + "".join(self.base()).encode(), b"x" * r.randrange(3000), b"\r", b"a\rb"])]
        out.append(r.choice([b"\n", b"\r\n"]))
        style = r.choice(["lf", "crlf", "mixed", "mixed"])
        for n in range(lines):
            line = self.good_line()
            if r.random() < self.p_bad:
                line = self.damaged(line)
            end = {"lf": b"\n", "crlf": b"\r\n"}.get(style) or r.choice([b"\n", b"\r\n"])
            if n == lines - 1:
                end = r.choice([end, b"", b"", b"\r", end + b"\n"])
            out += [line, end]
            # what the model will read of it, so that the next line is plausible
            self.run.line(line[:-1] if end == b"\n" and line.endswith(b"\r") else line)
        return b"".join(out)


def main():
    seed, lines = int(sys.argv[1]), int(sys.argv[2])
    sys.stdout.buffer.write(Gen(seed).trace(lines))


if __name__ == "__main__":
    main()
