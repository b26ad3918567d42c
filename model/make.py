#!/usr/bin/env python3
"""Writes the stored traces of the program `nights` and its expected output.   make.py

Every good line stands here with what document 01 says of it, typed by hand: answer, state, power, rf, and how many rows
it ADDS. The model (replay.py) is then asserted to give exactly that, and what is stored is what both say. 01's own whole
case is not made here: its lines are 01's, in the crate `replay`.
"""

import os
import sys

import replay as m

NIGHTS = os.path.join(os.path.dirname(os.path.abspath(__file__)), "..", "crates", "nights")
STORED = []  # the traces in their order, each with its expected output
LF, CRLF = b"\n", b"\r\n"
T25 = "41C80000"
PLAIN = b"tick,call,temp,alert,out,refl,dog,replies,settings"


def S(th="41700000", bias="BF800000", inp="3F80000000000000", out="41A00000C1200000", refl="42000000C1200000", st=2):
    text = th + bias + inp + out + refl + str(st)
    assert len(text) == 65
    return text


def L(tick, call, temp=T25, alert=1, out=0, refl=0, dog=0, rep="", s=""):
    return ("%s,%s,%s,%s,%s,%s,%s,%s,%s" % (tick, call, temp, alert, out, refl, dog, rep, s)).encode("latin-1")


def fail(k, status="01"):
    """Replies whose k-th transfer (from 1) fails; all others are acknowledged with zeros."""
    return "00" * (9 * (k - 1)) + status


def data(k, octets):
    """Replies whose k-th transfer (from 1) brings these bytes; all others are acknowledged with zeros."""
    return "00" * (9 * (k - 1)) + "00" + octets


class Sheet:
    def __init__(self, header, header_end=LF):
        self.text = header + header_end
        self.want = m.HEADER
        self.count = 0
        self.rows = 0
        self.now = "Empty,0,0"
        self.notes = []
        self.causes = []

    def _put(self, line, end, out):
        if end is None:
            end = (LF, CRLF)[self.count % 2]
        self.count += 1
        self.text += line + end
        self.want += b"%d,%s\r\n" % (self.count, out.encode())

    def good(self, line, answer, state, rows, end=None, note="", cause=None):
        """state: 'Off,0,0' and so on, or None for 'as before'; rows: how many are added."""
        if state is None:
            state = self.now
        self.now = state
        self.rows += rows
        self._put(line, end, "%d,%s,%d" % (answer, state, self.rows))
        self.notes.append((self.count, note))
        if cause is not None:
            self.causes.append(cause)

    def bad(self, line, end=None, note=""):
        self._put(line, end, "bad")
        self.notes.append((self.count, "bad: " + note))

    def check(self, name):
        got = m.replay(self.text)
        if got != self.want:
            for n, (a, b) in enumerate(zip(got.split(b"\r\n"), self.want.split(b"\r\n"))):
                if a != b:
                    src = m.lines_of(self.text)[n] if n else b""
                    sys.exit("%s: line %d: model %r, by hand %r\n%r" % (name, n, a, b, src))
            sys.exit("%s: lengths differ" % name)

    def store(self, name):
        self.check(name)
        write(name, self.text, self.want)
        print("%s: %d lines, %d rows" % (name, self.count, self.rows))


def write(name, trace, want):
    path = os.path.join(NIGHTS, "data", name + ".csv")
    os.makedirs(os.path.dirname(path), exist_ok=True)
    with open(path, "wb") as f:
        f.write(trace)
    STORED.append((name, want))


# ---------------------------------------------------------------------------------------------------------------------
# every
# ---------------------------------------------------------------------------------------------------------------------

OFF, UP, PW, EN, DOWN = "Off,0,0", "Powerup,1,0", "Powered,1,0", "Enabled,1,1", "Powerdown,0,0"
EMPTY, HALT = "Empty,0,0", "Halted,0,0"
HOT, COLD, ALERT = "Blocked(OverTemperature),0,0", "Blocked(UnderTemperature),0,0", "Blocked(SupplyAlert),0,0"
TIN, TOUT, TREFL = "Tripped(Input),1,0", "Tripped(Output),1,0", "Tripped(Reflected),1,0"


def padded(line, size):
    """The same line with zeros in front of its tick, of exactly this many bytes."""
    return b"0" * (size - len(line)) + line


def every():
    z = Sheet(b'\xef\xbb\xbf"Tick";CALL,\x00,\t caf\xc3\xa9 \r,,,,,,,,,, an odd header, never looked at', LF)
    good, bad = z.good, z.bad

    # --- an empty slot: 2 for all but start, before 5, 8 and before any halt
    good(L(0, "startup"), 2, EMPTY, 0, note="an empty slot: answer 2")
    bad(b"", LF, "an empty line, LF")
    good(L(0, "update"), 2, EMPTY, 0)
    bad(b"", CRLF, "an empty line, CRLF")
    good(L(0, "reset"), 2, EMPTY, 0)
    good(L(0, "standby"), 2, EMPTY, 0)
    good(L(0, "settings", s=S()), 2, EMPTY, 0)
    good(L(0, "status"), 2, EMPTY, 0)
    good(L(0, "update", temp="7FC00000"), 2, EMPTY, 0, note="2 before 8")
    good(L(0, "status", temp="-"), 2, EMPTY, 0, note="2, and no halt")

    # --- a start, each of its 15 transfers failing in turn
    bad(PLAIN, note="the header once more")
    good(L(1, "start", rep=fail(1), s=S()), 14, HALT, 3 + 2, cause=1, note="start: the bias chip fails, row 3, then both pins low")
    good(L(1, "startup"), 3, HALT, 0, note="a halted slot: answer 3")
    good(L(1, "update", temp="7F800000"), 3, HALT, 0, note="3 before 8")
    good(L(1, "reset"), 3, HALT, 0)
    good(L(1, "standby"), 3, HALT, 0)
    good(L(1, "settings", s=S(st=0)), 3, HALT, 0)
    good(L(1, "status", temp="-"), 3, HALT, 0)
    bad(L(1, "start", s=""), note="a start with no settings")
    good(L(2, "start", rep=fail(2, "02"), s=S()), 14, HALT, 4 + 2, cause=1, note="ads7924 16 AA fails: no wait is logged")
    good(L(2, "start", rep=fail(3, "80"), s=S()), 14, HALT, 6 + 2, cause=1)
    good(L(2, "start", rep=fail(4, "FF"), s=S()), 14, HALT, 7 + 2, cause=1)
    good(L(2, "start", rep=fail(5, "10"), s=S()), 14, HALT, 8 + 2, cause=1)
    good(L(2, "start", rep=fail(6), s=S()), 14, HALT, 9 + 2, cause=1)
    good(L(2, "start", rep=fail(7, "7F") + "FFFFFFFFFFFFFFFF", s=S()), 14, HALT, 10 + 2, cause=1, note="a failed read")
    good(L(2, "start", rep=fail(8), s=S()), 14, HALT, 11 + 2, cause=1)
    bad(L(2, "start", s=S()[:-1]), note="settings of 64 characters")
    bad(L(2, "start", s=S() + "2"), note="settings of 66 characters")
    good(L(2, "start", rep=fail(9), s=S()), 14, HALT, 12 + 2, cause=1)
    good(L(2, "start", rep=fail(10), s=S()), 14, HALT, 13 + 2, cause=1, note="the alarm's read fails")
    good(L(3, "start", rep=data(10, "11"), s=S()), 14, HALT, 13 + 2, cause=2, note="an alarm stands: 1 AND 1")
    good(L(3, "start", rep=data(10, "8C"), s=S()), 14, HALT, 13 + 2, cause=2, note="an alarm stands: 8 AND C")
    good(L(3, "start", rep=fail(11), s=S()), 13, EMPTY, 14, note="ad5627 2F fails: no module, the halted slot becomes empty")
    good(L(3, "update"), 2, EMPTY, 0)
    good(L(3, "start", rep=fail(12), s=S()), 13, EMPTY, 15)
    good(L(3, "start", rep=fail(13), s=S()), 13, EMPTY, 16, note="mcp3221 fails")
    bad(L(3, "start", s=S()[:-1] + "3"), note="settings' state digit 3")
    good(L(3, "start", rep=fail(14), s=S()), 14, HALT, 17 + 2, cause=1, note="the output level's write fails")
    good(L(3, "start", rep=fail(15), s=S()), 14, HALT, 18 + 2, cause=1, note="the reflected level's write fails: 20 rows, the most of any call")

    # --- levels refused at a start
    good(L(4, "start", s=S(th="42200000")), 14, HALT, 16 + 2, cause=4, note="threshold 40.0: 2.5 V, code 4096")
    good(L(4, "start", s=S(th="C1200001")), 14, HALT, 16 + 2, cause=4, note="the f32 just below -10.0: below 0 V")
    good(L(4, "start", s=S(th="7FC00000")), 14, HALT, 16 + 2, cause=4, note="threshold NaN")
    good(L(4, "start", s=S(th="7F800000")), 14, HALT, 16 + 2, cause=4, note="threshold infinite")
    good(L(4, "start", s=S(out="00000000C1200000")), 14, HALT, 16 + 2, cause=4, note="slope 0: infinite volts")
    good(L(4, "start", s=S(th="C1200000", out="80000000C1200000")), 14, HALT, 16 + 2, cause=4, note="slope -0.0, 0/0: NaN")
    good(L(4, "start", s=S(refl="3F800000C1200000")), 14, HALT, 17 + 2, cause=4, note="the reflected level refused: 40 V")
    good(L(4, "start", s=S(refl="FFFFFFFFC1200000")), 14, HALT, 17 + 2, cause=4, note="a NaN slope")
    bad(L(4, "start", s=S(th="c1200000")), note="lower-case hex in settings")
    bad(L(4, "Start", s=S()), note="a capital in the call")

    # --- settings asking for Off; 10, 4; then settings that ask for more
    good(L(5, "start", temp="-", alert=0, out=1, refl=1, dog=1, rep=data(10, "A5"), s=S(th="421FFFFF", st=0)), 0, OFF, 18,
         note="just below 40.0 is accepted; alarm byte A5 is none; a start looks at nothing else")
    good(L(5, "start", s=S()), 4, OFF, 0, note="answer 4")
    good(L(5, "startup"), 0, OFF, 0, note="the guard is false: nothing, 0")
    good(L(5, "reset"), 10, OFF, 0, note="the guard is false: 10")
    good(L(5, "standby"), 0, OFF, 0)
    good(L(5, "update", temp="42700000"), 0, OFF, 0, note="60.0 is no fault")
    good(L(5, "update", temp="40A00000"), 0, OFF, 0, note="5.0 is no fault")
    good(L(5, "status", rep=data(2, "8000123456789ABC"), alert=0), 0, OFF, 5, note="a status looks for no fault")
    good(L(5, "settings", s=S(th="421FFFFF", st=0)), 0, OFF, 0, note="equal settings, Disable in Off")
    bad(L(5, "settings"), note="settings with none")
    good(L(1000, "settings", s=S(st=1)), 0, UP, 1 + 2, note="the output level rewritten, then power-up; deadline 1200")
    good(L(1199, "update"), 0, UP, 0)
    good(L(1200, "update"), 0, UP, 0, note="at the deadline: not late")
    good(L(1200, "reset", temp="FFFFFFFF"), 9, UP, 0, note="no such transition; its temperature is not looked at")
    good(L(1200, "startup", temp="-"), 0, UP, 0, note="nothing; the deadline stays")
    bad(L(1201, "update", rep="0"), note="half a byte of replies")
    good(L(1201, "update"), 0, PW, 3, note="late")
    good(L(1202, "update"), 0, PW, 0, note="the settings ask for Powered")
    good(L(1203, "reset"), 9, PW, 0)
    good(L(1203, "startup"), 0, PW, 0)
    good(L(1204, "settings", s=S(st=2)), 0, PW, 0, note="no event from Powered")
    good(L(1205, "update", dog=1), 0, PW, 0, note="the watchdog")
    bad(L(1206, "update", s=S()), note="settings filled for an update")
    bad(L(1206, "update", dog=2), note="flag 2")
    bad(L(1206, "update", alert="01"), note="flag 01")
    bad(L(1206, "update", out=""), note="an empty flag")
    good(L(1206, "update", out=1, refl=1), 0, EN, 2, note="enabled; no trip test in this update")

    # --- trips
    good(L(1207, "update", out=1, refl=1), 0, TOUT, 2, note="output before reflected")
    good(L(1208, "update", out=1, refl=1), 0, TOUT, 0)
    good(L(1208, "settings", s=S(st=2)), 0, TOUT, 0, note="equal; no event")
    good(L(1209, "reset"), 0, PW, 0)
    good(L(1210, "update"), 0, EN, 2)
    good(L(1210, "reset"), 0, EN, 0)
    good(L(1210, "startup"), 0, EN, 0)
    good(L(1211, "update", refl=1), 0, TREFL, 2)
    good(L(1212, "startup"), 0, PW, 0, note="InterlockReset by startup")
    good(L(1213, "update"), 0, EN, 2)
    good(L(1214, "settings", s=S(inp="41A00000C1200000", st=1)), 0, PW, 1, note="Powered wanted in Enabled: RF off")
    good(L(1214, "settings", s=S(inp="41A00000C1200000")), 0, PW, 0)
    good(L(1215, "update", rep=fail(2)), 0, EN, 2, note="a failure in a reply that is not taken")
    good(L(1216, "update", rep=data(1, "F745FFFFFFFFFFFF"), dog=1), 0, EN, 1, note="mcp3221 code 0x745, 19.99 dBm: no trip; the top nibble is dropped")
    good(L(1217, "update", rep=data(1, "0746"), out=1), 0, TIN, 2, note="code 0x746, 20.003 dBm: input before output")
    good(L(1218, "settings", s=S(inp="0000000041A00000", st=1)), 0, PW, 0, note="Powered wanted in Tripped: no row")
    good(L(1218, "settings", s=S(inp="0000000041A00000")), 0, PW, 0)
    good(L(1219, "update"), 0, EN, 2)
    good(L(1220, "update", rep=data(1, "0FFF")), 0, EN, 1, note="input power exactly 20.0: no trip")
    good(L(1220, "settings", s=S(inp="8000000041A00001")), 0, EN, 0)
    good(L(1221, "update"), 0, TIN, 2, note="the f32 after 20.0")
    good(L(1221, "reset"), 0, PW, 0)
    good(L(1222, "settings", s=S(inp="7F800000FFC00000")), 0, PW, 0)
    good(L(1222, "update"), 0, EN, 2)
    good(L(1223, "update"), 0, EN, 1, note="input power NaN: no trip")
    good(L(1224, "settings", s=S(inp="7F80000000000000")), 0, EN, 0)
    good(L(1225, "update", rep=data(1, "F001")), 0, TIN, 2, note="input power infinite")

    # --- power-down and its deadline
    good(L(2000, "standby"), 0, DOWN, 3, note="from Tripped; deadline 2500")
    good(L(2400, "standby"), 0, DOWN, 0, note="nothing; the deadline stays")
    good(L(2400, "reset"), 9, DOWN, 0)
    good(L(2400, "startup"), 0, DOWN, 0)
    good(L(2400, "settings", s=S(st=0)), 0, DOWN, 0, note="Disable has no line in Powerdown")
    bad(L("", "update"), note="an empty tick")
    good(L(2499, "update"), 0, DOWN, 0)
    good(L(2500, "update"), 0, DOWN, 0)
    good(L(2501, "update"), 0, OFF, 0)

    # --- the clock wraps
    good(L(4294967200, "settings", s=S()), 0, UP, 2, note="deadline 104")
    bad(L(4294967296, "update"), note="tick 2^32")
    bad(L("18446744073709551721", "update"), note="tick 2^64 + 105")
    good(L(4294967295, "update"), 0, UP, 0, note="the last tick")
    bad(L("+105", "update"), note="a sign")
    bad(L("-105", "update"), note="a sign")
    good(L(104, "update"), 0, UP, 0)
    good(L("0" * 40 + "105", "update"), 0, PW, 3, note="zeros in front of the tick")
    good(L(4294966795, "standby"), 0, DOWN, 3, note="deadline 4294967295")
    good(L(4294967295, "update"), 0, DOWN, 0)
    good(L(0, "update"), 0, OFF, 0)
    good(L(0, "reset"), 0, UP, 2, note="deadline 200")
    good(L(199, "update"), 0, UP, 0)
    good(L(2147483848, "update"), 0, UP, 0, note="2^31 after the deadline: not late")
    good(L(2147483847, "update"), 0, PW, 3, note="2^31 - 1 after the deadline: late")

    # --- faults
    good(L(300, "update", temp="42700001", alert=0), 0, HOT, 3, note="just above 60.0; before the alert pin")
    good(L(301, "update", temp="80000000"), 0, HOT, 3, note="another fault: the writes again, the first fault stays")
    good(L(302, "update"), 0, HOT, 0)
    good(L(302, "startup"), 0, HOT, 0)
    good(L(302, "reset"), 9, HOT, 0)
    good(L(302, "standby"), 0, HOT, 0)
    good(L(302, "settings", s=S(bias="BFC00000", st=0)), 0, HOT, 1, note="the bias is written; Disable has no line")
    good(L(302, "settings", s=S(bias="BFC00000", st=1)), 0, HOT, 0)
    good(L(302, "status"), 0, HOT, 5)
    good(L(303, "update", temp="7F800000"), 8, HOT, 0, note="answer 8")
    good(L(303, "update", temp="FF800000"), 8, HOT, 0)
    good(L(303, "update", temp="7F800001"), 8, HOT, 0)
    good(L(303, "status", temp="FFFFFFFF"), 8, HOT, 0)
    bad(L(303, "update", temp="41c80000"), note="lower-case hex in temp")
    bad(L(303, "update", temp="1C80000"), note="seven digits")
    bad(L(303, "update", temp="041C80000"), note="nine digits")
    bad(L(303, "update", temp="--"), note="--")
    bad(L(303, "update", temp=""), note="an empty temp")
    good(L(304, "update", temp="-", alert=0), 14, HALT, 2, cause=3, note="the temperature failed: no row but the pins'")
    good(L(305, "start", s=S()), 0, OFF, 18, note="a halted slot may be started anew")
    good(L(305, "startup"), 0, UP, 2)
    good(L(600, "update", temp="409FFFFF", alert=0), 0, COLD, 3, note="just below 5.0, in Powerup though late")
    good(L(600, "status", temp="-"), 14, HALT, 4 + 2, cause=3, note="status: four voltages, then the temperature failed")
    good(L(700, "start", s=S()), 0, OFF, 18)
    good(L(700, "startup"), 0, UP, 2)
    good(L(901, "update"), 0, PW, 3)
    good(L(902, "update"), 0, EN, 2)
    good(L(903, "update", temp="42700000", alert=0, out=1), 0, ALERT, 3, note="a fault in Enabled: no input read, no trip")
    good(L(904, "update", temp="7F7FFFFF", rep=fail(1)), 14, HALT, 2 + 2, cause=1, note="the repeated writes: the bias chip fails")
    good(L(1000, "start", s=S()), 0, OFF, 18)
    good(L(1000, "reset", rep=fail(1)), 14, HALT, 1 + 2, cause=1, note="power-up: the bias chip fails")
    good(L(1001, "start", s=S()), 0, OFF, 18)
    good(L(1001, "update", temp="00000001"), 0, COLD, 3, note="a fault in Off; a subnormal temperature")
    good(L(1002, "status", rep=fail(4)), 14, HALT, 4 + 2, cause=1)

    # --- enabling: causes 5 and 6, NaN, -0.0, subnormals, infinities
    good(padded(L(2000, "start", s=S(th="C1000001")), 512), 0, OFF, 18, LF, note="a good line of exactly 512 bytes, LF")
    bad(padded(L(2000, "startup"), 513), LF, "513 bytes, LF")
    good(padded(L(2000, "startup"), 512), 0, UP, 2, CRLF, note="512 bytes, CRLF")
    bad(padded(L(2201, "update"), 513), CRLF, "513 bytes, CRLF")
    good(L(2201, "update"), 0, PW, 3)
    bad(padded(L(2202, "update", temp="-"), 512) + b"\r" + b"5" * 700, LF, "512 good bytes, a CR and 700 more")
    good(L(2202, "update"), 0, PW, 0, note="threshold just below map(0.1) = -8.0: the guard is false")
    good(L(2203, "settings", s=S(th="C0FFFFFF")), 0, PW, 1)
    good(L(2203, "update", rep=fail(1)), 14, HALT, 1 + 2, cause=1, note="just above -8.0: the guard is true; the bias chip fails")
    good(L(3000, "start", s=S(th="C1000000")), 0, OFF, 18, note="threshold equal to map(0.1)")
    good(L(3000, "startup"), 0, UP, 2)
    good(L(3201, "update"), 0, PW, 3)
    good(L(3202, "update"), 14, HALT, 2, cause=5, note="cause 5")
    good(L(4000, "start", s=S(bias="C0533333")), 0, OFF, 18, note="bias -3.3: a start does not look at it")
    good(L(4000, "startup"), 0, UP, 2)
    good(L(4201, "update"), 0, PW, 3)
    good(L(4202, "update"), 14, HALT, 2, cause=6, note="3.3 is out of range: cause 6")
    good(L(5000, "start", s=S(th="00000001", bias="C0533332", out="0000000180000000")), 0, OFF, 18,
         note="threshold and slope subnormal: 1.0 V; bias just inside its range")
    good(L(5000, "startup"), 0, UP, 2)
    good(L(5201, "update"), 0, PW, 3)
    good(L(5202, "update"), 0, EN, 2, note="map(0.1) rounds to 0, below the threshold")
    good(L(5203, "settings", s=S(th="00000001", bias="C0533332", inp="3F80000080000000", out="0000000100000000")), 0, EN, 0,
         note="zeros of the other sign are equal")
    good(L(5204, "settings", s=S(bias="7FC00000")), 0, EN, 2, note="the output level and a NaN bias are written")
    good(L(5204, "settings", s=S(bias="7FC00000")), 0, EN, 1, note="a NaN is never equal: the bias again")
    good(L(5205, "settings", s=S(bias="80000000")), 0, EN, 1)
    good(L(5205, "settings", s=S(bias="00000000", st=1)), 0, PW, 1, note="bias 0.0 is not != -0.0: RF off alone")
    good(L(5206, "settings", s=S(bias="00000001")), 11, PW, 0, note="-2^-149 V is below 0: out of range")
    good(L(5206, "update"), 14, HALT, 2, cause=6, note="it was stored: cause 6")

    # --- settings: 11 and 12
    good(L(6000, "start", s=S(th="00000000", out="FF800000C1200000")), 0, OFF, 18, note="slope -infinity: 10/-infinity, -0.0 V, code 0")
    good(L(6000, "startup"), 0, UP, 2)
    good(L(6201, "update"), 0, PW, 3)
    good(L(6202, "update"), 0, EN, 2, note="map(0.1) is -infinity")
    good(L(6202, "settings", s=S(th="00000000", out="FF800000C1200000")), 0, EN, 0, note="equal settings, though the threshold maps to NaN")
    good(L(6202, "settings", s=S(th="00000000", inp="4000000000000000", out="FF800000C1200000")), 0, EN, 1, note="not equal: NaN != NaN, the level again")
    good(L(6203, "settings", s=S(th="42480000", st=0)), 11, EN, 0, note="threshold 50: refused, stored, no event")
    good(L(6204, "settings", s=S(th="42480000", st=1)), 0, PW, 1, note="stored: nothing to write any more, and RF off")
    good(L(6205, "settings", s=S(refl="3F800000C1200000", st=0)), 11, PW, 1, note="the output level written, the reflected refused")
    good(L(6206, "settings", s=S(th="41200000", bias="3F800000", out="41E8000000000000", st=0)), 11, PW, 1,
         note="both map to 290: the output level is not sent; the reflected is; a bias of 1.0 is refused")
    good(L(6207, "settings", rep=fail(1), s=S(st=0, th="41600000")), 12, PW, 1, note="the output level's write fails")
    good(L(6208, "settings", rep=fail(2), s=S(st=0, refl="42000000C1100000")), 12, PW, 2, note="the reflected level's write fails; the bias was not changed")
    good(L(6209, "settings", s=S(refl="42000000C1100000", th="7FC00000")), 11, PW, 0, note="a NaN threshold refused, stored")
    good(L(6210, "update"), 14, HALT, 2, cause=5, note="'not <' passes, '>' does not: cause 5")
    bad(L(6211, "status", rep="0a"), note="lower-case hex in replies")
    bad(L(6211, "status", rep="00" * 136), note="272 digits")
    good(L(7000, "start", rep="00FF" * 4 + "00" + "00FFFFFFFFFFFFFFFF" * 8 + "00F0FFFFFFFFFFFFFF" + "00FFFFFFFFFFFFFFFF" * 5, s=S()), 0, OFF, 18,
         note="270 digits: data at every transfer, alarm byte F0")
    good(L(7000, "settings", rep=fail(3), s=S(th="41600000", bias="BFC00000", refl="42000000C1100000")), 14, HALT, 3 + 2, cause=1,
         note="the bias chip fails in settings")
    good(L(7001, "start", s=S(st=1)), 0, OFF, 18)
    good(L(7001, "settings", rep=fail(3), s=S(th="41600000", bias="BFC00000")), 14, HALT, 3 + 2, cause=1,
         note="two writes, then the event's bias write fails")
    good(L(7002, "start", s=S()), 0, OFF, 18)
    good(L(7002, "startup"), 0, UP, 2)
    bad(L(7203, "updat"), note="no call")
    bad(L(7203, ""), note="an empty call")
    good(L(7203, "standby", rep=fail(1, "A0")), 14, HALT, 2 + 2, cause=1, note="power-down: the bias chip fails")

    # --- an update that reads, a status that fails
    good(L(8000, "start", s=S()), 0, OFF, 18)
    good(L(8000, "startup"), 0, UP, 2)
    good(L(8201, "update"), 0, PW, 3)
    good(L(8202, "update"), 0, EN, 2)
    # bytes that are no text, and columns; each would halt or trip if it were taken
    bad(L(8203, "update", temp="-")[:-1], note="eight columns")
    bad(L(8203, "update", temp="-") + b",", note="ten columns")
    bad(b",,,,,,,,", note="nine empty columns")
    bad(L(8203, "update", temp="-").replace(b",", b";"), note="semicolons")
    bad(L(8203, "update", temp="-") + b" ", note="a space at the end")
    bad(L(" 8203", "update", temp="-"), note="a space in front")
    bad(L("8203\t", "update", temp="-"), note="a tab")
    bad(L('"8203"', "update", temp="-"), note="quotes round the tick")
    bad(L(8203, '"update"', temp="-"), note="quotes round the call")
    bad(L("82\x003", "update", temp="-"), note="NUL in the tick")
    bad(L(8203, "update\x00", temp="-"), note="NUL after the call")
    bad(L(8203, "update", temp="41C8000\x00"), note="NUL in place of a digit")
    bad(b"\xef\xbb\xbf" + L(8203, "update", temp="-"), note="a byte order mark")
    bad(L("82\xc2\xb2", "update", temp="-"), note="a superscript two, UTF-8")
    bad(L(8203, "upd\xe2te", temp="-"), note="a byte of Latin-1")
    bad(L(8203, "update\r", temp="-"), note="a lone CR inside")
    bad(L(8203, "update", temp="-") + b"\r" + L(8203, "update", temp="-"), note="a lone CR between two lines")
    bad(L(8203, "update", temp="-") + b"\r", CRLF, "CR CR LF")
    bad(L(8203, "update", temp="-") + b"\x0b" + L(8203, "update"), note="a vertical tab is no line end")
    bad(L(8203, "update", temp="-") + b"\x85" + L(8203, "update"), note="NEL is no line end")
    bad(L(8203, "update", temp="-") + b"\x1a", note="Ctrl-Z")
    bad(L("0x200B", "update", temp="-"), note="a tick in hex")
    bad(L(8203, "update", temp="-", rep="0G"), note="no hex digit")
    bad(L(8203, "settings", s=S(th="+1700000")), note="a sign in a float")
    bad(L(8203, "settings", s=S()[:-1] + "\x00"), note="NUL for the state digit")
    bad(L(8203, "update", temp="-") * 150, note="a line of some thousand bytes")
    good(L(8203, "update", rep=data(1, "FFFF")), 0, EN, 1, note="nothing of all this had an effect")
    good(L(8204, "settings", s=S(st=0)), 0, DOWN, 3, note="Off wanted in Enabled")
    good(L(8600, "update", alert=0), 0, ALERT, 3, note="a fault in Powerdown")
    good(L(8601, "status", rep="00" * 45), 0, ALERT, 5)
    good(L(8602, "status", rep=fail(5)), 14, HALT, 5 + 2, cause=1, note="status: the input's read fails")
    good(L(8603, "start", s=S()), 0, OFF, 18, b"", note="a good last line with no end")
    z.store("every")
    answers = {int(x.split(b",")[1]) for x in z.want.split(b"\r\n")[1:-1] if not x.endswith(b",bad")}
    states = {x.split(b",")[2] for x in z.want.split(b"\r\n")[1:-1] if not x.endswith(b",bad")}
    bads = sum(x.endswith(b",bad") for x in z.want.split(b"\r\n"))
    print("  answers %s, causes %s, %d states, %d bad lines" % (sorted(answers), sorted(set(z.causes)), len(states), bads))
    assert len(states) == 13 and set(z.causes) == {1, 2, 3, 4, 5, 6} and answers == {0, 2, 3, 4, 8, 9, 10, 11, 12, 13, 14}


# ---------------------------------------------------------------------------------------------------------------------
# more bad lines, each between two good ones; and each byte in each kind of place
# ---------------------------------------------------------------------------------------------------------------------


def more_bad():
    z = Sheet(PLAIN, CRLF)
    good, bad = z.good, z.bad
    good(L(0, "start", s=S()), 0, OFF, 18)
    good(L(0, "startup"), 0, UP, 2)
    good(L(201, "update"), 0, PW, 3)
    good(L(202, "update"), 0, EN, 2)
    U = lambda tick="300", call="update", temp="-", **k: L(tick, call, temp, **k)  # would halt if it were taken
    rest = "-,1,0,0,0,,"
    bads = [
        (U(call="updates"), "no call"), (U(call="halt"), "no call"), (U(call="UPDATE"), "capitals"), (U(call="Update"), "a capital"),
        (U(call="start"), "a start with no settings, in a slot that is not empty"), (U(call="startup "), "a space"),
        (U(call=" update"), "a space"), (U(call="stat"), "no call"), (U(call="0"), "no call"),
        (L(300, "standby", s=S(st=0)), "settings filled for a standby"), (L(300, "reset", s="0"), "a settings column for a reset"),
        (L(300, "startup", s=S()), "settings filled for a startup"), (L(300, "status", s=S()), "settings filled for a status"),
        (L(300, "standby", s=" "), "a space for no settings"), (L(300, "standby", s="-"), "a dash for no settings"),
        (U("820\xef\xbc\x93"), "a fullwidth digit, UTF-8"), (U("\xd9\xa3"), "an Arabic digit, UTF-8"), (U("1_000"), "an underscore"),
        (U("300.0"), "a point"), (U("3e2"), "an exponent"), (U("300."), "a point at the end"), (U("3 0"), "a space inside"),
        (U("0x12C"), "hex"), (U("12C"), "a hex digit"), (U("-0"), "minus zero"), (U("--300"), "two signs"),
        (U("4294967296"), "2^32"), (U("4294967306"), "2^32 + 10"), (U("00004294967296"), "2^32 with zeros in front"),
        (U("42949672950"), "ten times 2^32 - 1, and less"), (U("99999999999999999999"), "twenty digits"),
        (U("18446744073709551616"), "2^64"), (U("340282366920938463463374607431768211456"), "2^128"), (U("9" * 480), "480 digits"),
        (U(temp=""), "empty"), (U(temp="0"), "one digit"), (U(temp="0x41C800"), "0x"), (U(temp="25.0"), "a decimal"), (U(temp="nan"), "nan"),
        (U(temp="-1C80000"), "a sign"), (U(temp="- "), "a space"), (U(temp=" -"), "a space"), (U(temp="-" * 8), "eight dashes"),
        (U(temp="\xe2\x88\x92"), "a minus sign, UTF-8"), (U(temp="41C8000O"), "the letter O"), (U(temp="41C8 000"), "a space"),
        (U(alert="2"), "2"), (U(out="00"), "00"), (U(refl="10"), "10"), (U(dog="-1"), "-1"), (U(dog="-"), "-"), (U(alert=" "), "a space"),
        (U(alert="true"), "true"), (U(alert="1 "), "a space after"), (U(out=" 0"), "a space before"), (U(dog="0\t"), "a tab after"),
        (L(300, "settings", s="-"), "a dash for the settings"), (U(refl="\x01"), "byte 1"), (U(dog="\x00"), "NUL"), (U(out="+1"), "+1"),
        (U(rep="0"), "half a byte"), (U(rep="000"), "a byte and a half"), (U(rep="00 00"), "a space"), (U(rep="0x00"), "0x"),
        (U(rep="ff"), "lower case"), (U(rep="fF"), "mixed case"), (U(rep="GG"), "no digits"), (U(rep="0\x00"), "NUL"), (U(rep="-"), "a dash"),
        (U(rep="00" * 135 + "0"), "271 digits"), (U(rep="00" * 136), "272 digits"), (U(rep="00" * 134 + "0"), "269 digits"),
        (U(rep="0" * 480), "480 digits"),
        (L(300, "settings", s=S(st=0)[:-1]), "64"), (L(300, "settings", s="0" + S(st=0)), "66"), (L(300, "settings", s=S(st=0)[1:] + "A"), "the state digit A"),
        (L(300, "settings", s=S(st=0)[:-1] + "3"), "3"), (L(300, "settings", s=S(st=0)[:-1] + "-"), "-"), (L(300, "settings", s=S(st=0)[:-1] + " "), "a space"),
        (L(300, "settings", s=S(st=0).lower()), "lower case"), (L(300, "settings", s="0"), "one digit"), (L(300, "settings", s=S(st=0)[:-9] + "0"), "seven floats"),
        (L(300, "settings", s=S(st=0)[:-1] + "\xc2\xb2"), "a superscript two, UTF-8"), (L(300, "settings", s="-" + S(st=0)[1:]), "a sign"),
        (b"300,update", "two columns"), (b"300", "one column"), (b",", "one comma"), (b"," * 8, "nine empty columns"), (b"," * 600, "600 commas"),
        (U() + b",", "ten columns"), (b"," + U(), "ten columns"), (U()[:-1], "eight columns"), (U().replace(b",-,", b",,"), "an empty temp"),
        (U().replace(b",-,", b","), "eight columns"), (U().replace(b"update", b"up,date"), "ten columns"), (b"#" + U(), "a comment"),
        (U() + b"\x00", "NUL at the end"), (b"\x00" + U(), "NUL in front"), (b"\x00" * 600, "600 NULs"), (b"\xff" * 40, "bytes FF"),
        (b"\r" + U(), "a CR in front"), (U() + b"\r\r", "CRs at the end"), (b"\r\r", "CRs alone"), (U() + b"\r" + U(), "a CR between"),
        (U() + b"\x0b", "a vertical tab"), (U() + b"\x0c", "a form feed"), (U() + b"\x85", "NEL"), (U() + b"\xe2\x80\xa8", "a line separator, UTF-8"),
        (U() + b"\x1a", "Ctrl-Z"), (U() + b"\x04", "Ctrl-D"), (b"\x1a", "Ctrl-Z alone"), (U() + b" ", "a space at the end"), (b" " + U(), "a space in front"),
        (b'"' + U() + b'"', "quotes round the line"), (b'"300",update,' + rest.encode(), "quotes"), (b'300,"update",' + rest.encode(), "quotes"),
        (padded(U(), 513), "513 bytes"), (padded(U(), 514), "514 bytes"), (padded(U(), 515), "515 bytes"), (padded(U(), 1024), "1024 bytes"),
        (padded(U(), 512) + b"\rX", "512 bytes, a CR and an X"), (padded(U(), 511) + b"\r\r", "511 bytes and two CRs"),
        (padded(U(), 512) + b"\r" * 600, "512 bytes and 600 CRs"), (padded(U(), 513) + b"\r", "513 bytes and a CR"), (padded(U(), 65536), "64 KiB"),
        (padded(U(), 512 + 65536), "512 bytes and 64 KiB"), (padded(U(), 256 + 512), "768 bytes"),
    ]
    bad(padded(U(), 512) + b"\r", CRLF, "512 bytes and CR CR LF")
    for n, (line, note) in enumerate(bads):
        bad(line, (LF, CRLF)[n % 2 if n % 3 else (n + 1) % 2], note)
        if n % 5 == 4:
            good(L(300 + n, "update"), 0, EN, 1)
    good(padded(L(500, "update", out=1), 512), 0, TOUT, 2, CRLF, note="512 bytes")
    good(padded(L(501, "update"), 511), 0, TOUT, 0, LF, note="511 bytes")
    good(padded(L(501, "reset", rep="00" * 135), 512), 0, PW, 0, LF)
    good(L("0" * 400 + "4294967295", "standby"), 0, DOWN, 3)
    good(L("0" * 400, "update"), 0, DOWN, 0, b"", note="tick 0, in many digits; deadline 499")
    z.store("bad")


def each_byte():
    """On an empty slot, so that a line that fits gives answer 2 and no row."""
    z = Sheet(PLAIN, LF)
    digits, hexes = b"0123456789", b"0123456789ABCDEF"
    s = S().encode()
    places = [
        (b"1%c1,update,41C80000,1,0,0,0,,", digits), (b"%c,update,41C80000,1,0,0,0,,", digits), (b"11,updat%c,41C80000,1,0,0,0,,", b"e"),
        (b"11,%ctatus,41C80000,1,0,0,0,,", b"s"), (b"11,update,%c1C80000,1,0,0,0,,", hexes), (b"11,update,41C8000%c,1,0,0,0,,", hexes),
        (b"11,update,%c,1,0,0,0,,", b"-"), (b"11,update,41C80000,%c,0,0,0,,", b"01"), (b"11,update,41C80000,1,%c,0,0,,", b"01"),
        (b"11,update,41C80000,1,0,%c,0,,", b"01"), (b"11,update,41C80000,1,0,0,%c,,", b"01"), (b"11,update,41C80000,1,0,0,0,%c0,", hexes),
        (b"11,update,41C80000,1,0,0,0,0%c,", hexes), (b"11,update,41C80000,1,0,0,0,%c,", b""), (b"11,update,41C80000,1,0,0,0,,%c", b"\r"),
        (b"11,settings,41C80000,1,0,0,0,,%c" + s[1:], hexes), (b"11,settings,41C80000,1,0,0,0,," + s[:63] + b"%c" + s[64:], hexes),
        (b"11,settings,41C80000,1,0,0,0,," + s[:64] + b"%c", b"012"), (b"%c", b""),
    ]
    for pattern, fits in places:
        for b in range(256):
            if b == 10:
                continue
            line = pattern % b
            # at the end of a line a CR before LF is part of the line's end: then what is left has to fit
            if b == 13 and pattern.endswith(b"%c"):
                fit = pattern[:-2].endswith(b",,") and b"update" in pattern
            else:
                fit = b in fits
            if fit:
                z.good(line, 2, EMPTY, 0, LF)
            else:
                z.bad(line, LF)
    z.store("bytes")


# ---------------------------------------------------------------------------------------------------------------------
# table: each state, each call. What 01's table says, typed as a table; '=' is the state as it was.
# ---------------------------------------------------------------------------------------------------------------------

TABLE_STATES = {  # how a fresh slot gets there: (line, answer, state, rows) after a start; ticks begin at 1000
    "off0": [], "off2": [],
    "up": [("startup", {}, UP, 2)],
    "pw": [("startup", {}, UP, 2), ("update", {"tick": 1201}, PW, 3)],
    "en": [("startup", {}, UP, 2), ("update", {"tick": 1201}, PW, 3), ("update", {"tick": 1202}, EN, 2)],
    "tin": [("startup", {}, UP, 2), ("update", {"tick": 1201}, PW, 3), ("update", {"tick": 1202}, EN, 2),
            ("update", {"tick": 1203, "rep": "000FFF", "out": 1, "refl": 1}, TIN, 2)],
    "tout": [("startup", {}, UP, 2), ("update", {"tick": 1201}, PW, 3), ("update", {"tick": 1202}, EN, 2),
             ("update", {"tick": 1203, "out": 1, "refl": 1}, TOUT, 2)],
    "trefl": [("startup", {}, UP, 2), ("update", {"tick": 1201}, PW, 3), ("update", {"tick": 1202}, EN, 2),
              ("update", {"tick": 1203, "refl": 1}, TREFL, 2)],
    "down": [("startup", {}, UP, 2), ("standby", {"tick": 1001}, DOWN, 3)],
    "hot": [("update", {"temp": "42700001", "alert": 0}, HOT, 3)],
    "cold": [("update", {"temp": "409FFFFF", "alert": 0}, COLD, 3)],
    "alert": [("update", {"alert": 0}, ALERT, 3)],
}
# columns: off0, off2, up, pw, en, the three tripped, down, the three blocked
COLUMNS = ["off0", "off2", "up", "pw", "en", "t", "down", "b"]
TABLE_CALLS = [
    # name, what is given, then for each column 'answer state rows'
    ("startup", {}, "0 = 0", "0 UP 2", "0 = 0", "0 = 0", "0 = 0", "0 PW 0", "0 = 0", "0 = 0"),
    ("startup", {"rep": "01"}, "0 = 0", "14 HALT 3", "0 = 0", "0 = 0", "0 = 0", "0 PW 0", "0 = 0", "0 = 0"),
    ("reset", {}, "10 = 0", "0 UP 2", "9 = 0", "9 = 0", "0 = 0", "0 PW 0", "9 = 0", "9 = 0"),
    ("standby", {}, "0 = 0", "0 = 0", "0 DOWN 3", "0 DOWN 3", "0 DOWN 3", "0 DOWN 3", "0 = 0", "0 = 0"),
    ("standby", {"rep": "01"}, "0 = 0", "0 = 0", "14 HALT 4", "14 HALT 4", "14 HALT 4", "14 HALT 4", "0 = 0", "0 = 0"),
    ("update", {"tick": 1200}, "0 = 0", "0 = 0", "0 = 0", "0 EN 2", "0 = 1", "0 = 0", "0 = 0", "0 = 0"),
    ("update", {"tick": 1501}, "0 = 0", "0 = 0", "0 PW 3", "0 EN 2", "0 = 1", "0 = 0", "0 = 0", "0 = 0"),
    ("update", {"tick": 1502}, "0 = 0", "0 = 0", "0 PW 3", "0 EN 2", "0 = 1", "0 = 0", "0 OFF 0", "0 = 0"),
    ("update", {"tick": 1502, "dog": 1}, "0 = 0", "0 = 0", "0 PW 3", "0 = 0", "0 = 1", "0 = 0", "0 OFF 0", "0 = 0"),
    ("update", {"tick": 1502, "out": 1, "refl": 1}, "0 = 0", "0 = 0", "0 PW 3", "0 EN 2", "0 TOUT 2", "0 = 0", "0 OFF 0", "0 = 0"),
    ("update", {"tick": 1502, "refl": 1}, "0 = 0", "0 = 0", "0 PW 3", "0 EN 2", "0 TREFL 2", "0 = 0", "0 OFF 0", "0 = 0"),
    ("update", {"tick": 1502, "rep": "000FFF", "out": 1}, "0 = 0", "0 = 0", "0 PW 3", "0 EN 2", "0 TIN 2", "0 = 0", "0 OFF 0", "0 = 0"),
    ("update", {"tick": 1502, "rep": "01"}, "0 = 0", "0 = 0", "0 PW 3", "14 HALT 3", "14 HALT 3", "0 = 0", "0 OFF 0", "0 = 0"),
    ("update", {"tick": 1502, "temp": "42700001", "alert": 0, "out": 1}, "0 HOT 3", "0 HOT 3", "0 HOT 3", "0 HOT 3", "0 HOT 3", "0 HOT 3", "0 HOT 3", "0 = 3"),
    ("update", {"tick": 1502, "temp": "409FFFFF", "alert": 0, "refl": 1}, "0 COLD 3", "0 COLD 3", "0 COLD 3", "0 COLD 3", "0 COLD 3", "0 COLD 3", "0 COLD 3", "0 = 3"),
    ("update", {"tick": 1502, "alert": 0, "rep": "000FFF"}, "0 ALERT 3", "0 ALERT 3", "0 ALERT 3", "0 ALERT 3", "0 ALERT 3", "0 ALERT 3", "0 ALERT 3", "0 = 3"),
    ("update", {"tick": 1502, "alert": 0, "rep": "80"}, *["14 HALT 4"] * 8),
    ("update", {"tick": 1502, "temp": "-", "alert": 0, "out": 1}, *["14 HALT 2"] * 8),
    ("update", {"tick": 1502, "temp": "7F800000", "alert": 0, "out": 1}, *["8 = 0"] * 8),
    ("settings", {"st": 0}, "0 = 0", "0 = 0", "0 DOWN 3", "0 DOWN 3", "0 DOWN 3", "0 DOWN 3", "0 = 0", "0 = 0"),
    ("settings", {"st": 1}, "0 UP 2", "0 UP 2", "0 = 0", "0 = 0", "0 PW 1", "0 PW 0", "0 = 0", "0 = 0"),
    ("settings", {"st": 2}, "0 UP 2", "0 UP 2", "0 = 0", "0 = 0", "0 = 0", "0 = 0", "0 = 0", "0 = 0"),
    ("settings", {"st": 0, "th": "42480000"}, *["11 = 0"] * 8),
    ("settings", {"st": 1, "th": "41400000", "rep": "01"}, *["12 = 1"] * 8),
    ("settings", {"st": 1, "bias": "BFC00000", "rep": "01"}, *["14 HALT 3"] * 8),
    ("settings", {"st": 0, "th": "41400000", "bias": "BFC00000", "refl": "42000000C1100000"},
     "0 = 3", "0 = 3", "0 DOWN 6", "0 DOWN 6", "0 DOWN 6", "0 DOWN 6", "0 = 3", "0 = 3"),
    ("settings", {"st": 0, "th": "41400000", "bias": "BFC00000", "refl": "42000000C1100000", "rep": "00" * 27 + "01"},
     "0 = 3", "0 = 3", "14 HALT 7", "14 HALT 7", "14 HALT 7", "14 HALT 7", "0 = 3", "0 = 3"),
    ("settings", {"st": 2, "th": "41400000", "bias": "BFC00000", "refl": "42000000C1100000", "rep": "00" * 27 + "01"},
     "14 HALT 6", "14 HALT 6", "0 = 3", "0 = 3", "0 = 3", "0 = 3", "0 = 3", "0 = 3"),
    ("settings", {"st": 1, "th": "41400000", "bias": "3F800000", "refl": "42000000C1100000"}, *["11 = 2"] * 8),
    ("settings", {"st": 1, "th": "41400000", "refl": "3F800000C1100000"}, *["11 = 1"] * 8),
    ("settings", {"st": 0, "th": "41400000", "refl": "42000000C1100000", "rep": "00" * 9 + "FF"}, *["12 = 2"] * 8),
    ("status", {}, *["0 = 5"] * 8),
    ("status", {"temp": "-"}, *["14 HALT 6"] * 8),
    ("status", {"temp": "FFC00000"}, *["8 = 0"] * 8),
    ("start", {"st": 2}, *["4 = 0"] * 8),
]
NAMES = {"UP": UP, "PW": PW, "DOWN": DOWN, "OFF": OFF, "EN": EN, "HALT": HALT, "HOT": HOT, "COLD": COLD, "ALERT": ALERT,
         "TIN": TIN, "TOUT": TOUT, "TREFL": TREFL}
IN2010 = "41A00000C1200000"  # an input transform by which code 0xFFF is 55.98 dBm and code 0 is -10


def table():
    number, z = 1, Sheet(PLAIN, LF)
    for state, way in TABLE_STATES.items():
        for call in TABLE_CALLS:
            name, given, outcome = call[0], dict(call[1]), call[2:]
            column = "t" if state in ("tin", "tout", "trefl") else "b" if state in ("hot", "cold", "alert") else state
            answer, after, rows = outcome[COLUMNS.index(column)].split()
            if z.rows > 4000:
                z.store("table%d" % number)
                number, z = number + 1, Sheet(PLAIN, LF)
            z.good(L(1000, "start", s=S(inp=IN2010, st=0 if state == "off0" else 2)), 0, OFF, 18)
            for step, more, reached, n in way:
                z.good(L(**dict({"tick": 1000, "call": step}, **more)), 0, reached, n)
            s = ""
            if name in ("settings", "start"):
                s = S(inp=IN2010, **{k: given.pop(k) for k in ("st", "th", "bias", "refl") if k in given})
            line = L(**dict({"tick": 1250, "call": name, "s": s}, **given))
            z.good(line, int(answer), None if after == "=" else NAMES[after], int(rows), note="%s in %s" % (name, state))
            if after != "HALT":
                z.good(L(9000, "update", temp="-"), 14, HALT, 2)
    z.store("table%d" % number)


# ---------------------------------------------------------------------------------------------------------------------
# numbers: where a fused, a double or a flushed operation, or another grouping, would give another answer
# ---------------------------------------------------------------------------------------------------------------------


def numbers():
    z = Sheet(PLAIN, CRLF)
    good = z.good
    halt = lambda: good(L(0, "update", temp="-"), 14, HALT, 2)

    def accepted(note, **k):
        good(L(0, "start", s=S(**k)), 0, OFF, 18, note=note)
        halt()

    def refused(rows, note, **k):
        good(L(0, "start", s=S(**k)), 14, HALT, rows + 2, note=note)

    # levels at a start
    refused(17, "reflected (30 + 10) / 16 = 2.5: code 4096", refl="41800000C1200000")
    accepted("the next slope: 2.4999998, code 4095", refl="41800001C1200000")
    refused(17, "reflected offset the f32 after 30.0: below 0 V", refl="4200000041F00001")
    accepted("reflected offset 30.0: 0 V", refl="4200000041F00000")
    accepted("accepted by two roundings, code 4095; one rounding would give 2.5", th="C01BD706", out="40B051ECC181AE14")
    refused(16, "refused by two roundings; in binary64 it is below 2.5", th="424D7AE1", out="41F8CCCDC1D30A3D")
    refused(16, "2^127 - -2^127 overflows (2.0 V if it did not)", th="7F000000", out="7F000000FF000000")
    accepted("2^126 - -2^126 does not: 2.0 V", th="7E800000", out="7E800000FE800000")
    accepted("-2^-149 / 2 is a tie and rounds to -0.0: code 0", th="80000001", out="4000000000000000")
    refused(16, "-2^-149 / 1.9999999 rounds to -2^-149", th="80000001", out="3FFFFFFF00000000")
    accepted("2^-149 / 2 rounds to 0: code 0", th="00000001", out="4000000000000000")
    accepted("a slope below zero: (-5 - 10) / -20 = 0.75 V", th="C0A00000", out="C1A0000041200000")
    refused(16, "a slope below zero: (15 - 10) / -20", th="41700000", out="C1A0000041200000")

    # the 100 mV level
    def enabling(note, answer, state, rows, cause=None, **k):
        good(L(0, "start", s=S(**k)), 0, OFF, 18)
        good(L(0, "startup"), 0, UP, 2)
        good(L(201, "update"), 0, PW, 3)
        good(L(202, "update"), answer, state, rows, cause=cause, note=note)
        if answer == 0:
            halt()

    enabling("0.1 x 20 rounds to 2.0, less 2 is 0: equal, cause 5 (a fused map is above 0)", 14, HALT, 2, 5, th="00000000", out="41A00000C0000000")
    enabling("1e-8 is above 0 (and below a fused map)", 0, EN, 2, th="322BCC77", out="41A00000C0000000")
    enabling("0.1 x 9 is 3F666667 from the f32 0.1: equal, cause 5", 14, HALT, 2, 5, th="3F666667", out="4110000000000000")
    enabling("3F666666 is below it: the guard is false", 0, PW, 0, th="3F666666", out="4110000000000000")
    enabling("3F666668 is above it", 0, EN, 2, th="3F666668", out="4110000000000000")
    enabling("subnormal: 0.1 x 256 steps is 26 steps: equal, cause 5", 14, HALT, 2, 5, th="0000001A", out="0000010000000000")
    enabling("25 steps: the guard is false", 0, PW, 0, th="00000019", out="0000010000000000")
    enabling("27 steps", 0, EN, 2, th="0000001B", out="0000010000000000")
    enabling("bias -0.0", 0, EN, 2, bias="80000000")
    enabling("bias -2^-149", 0, EN, 2, bias="80000001")
    enabling("bias the f32 below -3.3: cause 6", 14, HALT, 2, 6, bias="C0533334")
    enabling("bias NaN: code 0", 0, EN, 2, bias="FFC00001")
    enabling("bias -infinity: cause 6", 14, HALT, 2, 6, bias="FF800000")
    enabling("bias +infinity: cause 6", 14, HALT, 2, 6, bias="7F800000")

    # the input's trip level
    good(L(0, "start", s=S(inp="4200000040D9999A")), 0, OFF, 18)
    good(L(0, "startup"), 0, UP, 2)
    good(L(201, "update"), 0, PW, 3)
    good(L(202, "update"), 0, EN, 2)
    good(L(203, "update", rep=data(1, "0200")), 0, EN, 1, note="0.125 x 3.3 x 32 + 6.8 is exactly 20.0 in f32 (above it with a binary64 3.3)")
    good(L(204, "settings", s=S(inp="41940000C14170A4")), 0, EN, 0)
    good(L(205, "update", rep=data(1, "0869")), 0, EN, 1, note="20.0 by two roundings (a fused map is above it)")
    good(L(206, "update", rep=data(1, "086A")), 0, TIN, 2)
    halt()

    # what has changed in settings
    k = {"th": "00000000", "out": "7F800000C1200000", "st": 0}
    good(L(0, "start", s=S(**k)), 0, OFF, 18, note="slope infinite: 10 / infinity is 0 V; 0 x infinity maps to NaN")
    good(L(0, "settings", s=S(**k)), 0, OFF, 0, note="equal settings: nothing is compared any more")
    good(L(0, "settings", s=S(inp="3F8000003F800000", **k)), 0, OFF, 1, note="not equal: NaN != NaN, the output level again")
    good(L(0, "settings", s=S(st=0)), 0, OFF, 1)
    good(L(0, "settings", s=S(st=0, refl="41F8000041A00000")), 0, OFF, 0, note="30 x 31 + 20 = 950 = 30 x 32 - 10")
    good(L(0, "settings", s=S(st=0, refl="42000000C1200001")), 0, OFF, 0, note="950 once more: 960 less 10.000001, rounded")
    good(L(0, "settings", s=S(st=0, refl="42000000C1200100")), 0, OFF, 1, note="960 less 10.000244 is another number")
    good(L(0, "settings", s=S(st=0, out="41A00000C1100000", refl="42000000C1200100")), 0, OFF, 1, note="the output's offset alone: 291")
    good(L(0, "settings", s=S(st=0, out="41B00000C1100000", refl="42000000C1200100")), 0, OFF, 1, note="the output's slope alone: 321")
    good(L(0, "settings", s=S(st=0, th="3089705F")), 0, OFF, 2, note="both levels")
    good(L(0, "settings", s=S(st=0, th="3109705F")), 0, OFF, 0, note="1e-9 and 2e-9 both map to -10.0")
    good(L(0, "settings", s=S(st=0, th="3DCCCCCD", out="41A00000C0000000")), 0, OFF, 1, note="0.1 x 20 - 2 = 0")
    good(L(0, "settings", s=S(st=0, th="00000000", out="41A0000080000000")), 0, OFF, 0, note="0 x 20 + -0.0 = 0: equal, unless fused")
    good(L(0, "settings", s=S(st=0, th="7F000000", out="4200000000000000")), 11, OFF, 0, note="maps to infinity, refused")
    good(L(0, "settings", s=S(st=0, th="7E000000", out="4300000000000000")), 0, OFF, 0, note="infinity == infinity: not sent")
    good(L(0, "settings", s=S(st=0, th="FE000000", out="4300000000000000")), 11, OFF, 0, note="-infinity, refused")
    z.store("numbers")


# ---------------------------------------------------------------------------------------------------------------------
# full: answer 5. A start whose last write fails adds 20 rows, the most of any call.
# ---------------------------------------------------------------------------------------------------------------------


def full():
    z = Sheet(PLAIN, LF)
    good = z.good
    for i in range(202):
        good(L(i, "start", rep=fail(15), s=S()), 14, HALT, 20)
    good(L(300, "start", rep=fail(6), s=S()), 14, HALT, 11, note="4051 rows")
    good(L(1000, "start", s=S()), 0, OFF, 18, note="4069")
    good(L(1000, "startup"), 0, UP, 2, note="4071")
    good(L(1201, "update"), 0, PW, 3, note="4074: 22 free")
    good(L(1202, "update"), 0, EN, 2, note="4076: 20 free")
    good(L(1203, "reset"), 0, EN, 0, note="20 rows free: let in, adds none")
    good(L(1204, "update"), 0, EN, 1, note="20 rows free: let in, adds one; 19 free")
    good(L(1205, "update"), 5, EN, 0, note="19 rows free: refused")
    good(L(1205, "update", out=1), 5, EN, 0, note="a trip is not seen")
    good(L(1205, "update", temp="42C80000"), 5, EN, 0, note="nor a fault")
    good(L(1205, "update", temp="-"), 5, EN, 0, note="nor a failed temperature")
    good(L(1205, "update", temp="7FC00000"), 5, EN, 0, note="5 before 8")
    good(L(1206, "status"), 5, EN, 0)
    good(L(1206, "status", temp="FF800000"), 5, EN, 0)
    good(L(1206, "startup"), 5, EN, 0, note="though it would add no row")
    good(L(1206, "reset"), 5, EN, 0)
    good(L(1206, "standby"), 5, EN, 0)
    good(L(1207, "settings", s=S()), 5, EN, 0, note="equal settings too")
    good(L(1207, "settings", s=S(st=0)), 5, EN, 0)
    good(L(1207, "settings", s=S(th="42480000")), 5, EN, 0, note="5 before 11")
    good(L(1207, "start", s=S()), 4, EN, 0, note="4 before 5")
    z.bad(L(1208, "update", temp="--"), note="a bad line")
    good(L(9999, "update"), 5, EN, 0, note="it stays")
    z.store("full")

    # the same to the last row: with 20 free a start adds 20
    z = Sheet(PLAIN, CRLF)
    good = z.good
    for i in range(203):
        good(L(i, "start", rep=fail(15), s=S()), 14, HALT, 20)
    good(L(300, "start", rep=fail(13), s=S()), 13, EMPTY, 16, note="4076: 20 free")
    good(L(301, "update"), 2, EMPTY, 0)
    good(L(302, "start", rep=fail(15), s=S()), 14, HALT, 20, note="4096: none free")
    good(L(303, "start", s=S()), 5, HALT, 0, note="a halted slot: 5 for a start")
    good(L(303, "start", rep=fail(1), s=S(th="7FC00000")), 5, HALT, 0)
    good(L(304, "startup"), 3, HALT, 0, note="3 before 5")
    good(L(304, "update", temp="-"), 3, HALT, 0)
    good(L(304, "reset"), 3, HALT, 0)
    good(L(304, "standby"), 3, HALT, 0)
    good(L(304, "settings", s=S()), 3, HALT, 0)
    good(L(304, "status"), 3, HALT, 0)
    good(L(305, "start", s=S()), 5, HALT, 0, b"")
    z.store("full2")

    # 19 free in an empty slot
    z = Sheet(PLAIN, LF)
    good = z.good
    for i in range(202):
        good(L(i, "start", rep=fail(15), s=S()), 14, HALT, 20)
    good(L(300, "start", rep=fail(4), s=S()), 14, HALT, 9, note="4049")
    good(L(300, "start", rep=fail(10), s=S()), 14, HALT, 15, note="4064: 32 free")
    good(L(300, "start", rep=fail(9), s=S()), 14, HALT, 14, note="4078: 18 free")
    good(L(301, "start", s=S()), 5, HALT, 0)
    z.check("full, 18 free")
    z = Sheet(PLAIN, LF)
    good = z.good
    for i in range(203):
        good(L(i, "start", rep=fail(15), s=S()), 14, HALT, 20)
    good(L(300, "start", rep=fail(1), s=S()), 14, HALT, 5, note="4065")
    good(L(300, "start", rep=fail(7), s=S()), 14, HALT, 12, note="4077: 19 free")
    good(L(301, "start", s=S()), 5, HALT, 0)
    z.check("full, 19 free in a halted slot")


# ---------------------------------------------------------------------------------------------------------------------
# ends of the input
# ---------------------------------------------------------------------------------------------------------------------


def ends():
    H = m.HEADER
    start = L(0, "start", s=S())
    up = L(0, "startup")
    one, two = b"1,0,Off,0,0,18\r\n", b"2,0,Powerup,1,0,20\r\n"
    cases = {
        "empty": (b"", H),
        "header_no_end": (PLAIN, H),
        "header_lf": (PLAIN + LF, H),
        "header_crlf": (PLAIN + CRLF, H),
        "header_cr_only": (PLAIN + b"\r", H),
        "lf_only": (b"\n", H),
        "crlf_only": (b"\r\n", H),
        "cr_only": (b"\r", H),
        "header_and_empty_line": (PLAIN + LF + LF, H + b"1,bad\r\n"),
        "header_and_empty_line_crlf": (PLAIN + CRLF + CRLF, H + b"1,bad\r\n"),
        "two_lf": (b"\n\n", H + b"1,bad\r\n"),
        "last_without_lf": (PLAIN + LF + start + LF + up, H + one + two),
        "last_with_lf": (PLAIN + LF + start + LF + up + LF, H + one + two),
        "last_with_empty_line_after": (PLAIN + LF + start + LF + up + LF + LF, H + one + two + b"3,bad\r\n"),
        "last_cr_without_lf": (PLAIN + LF + start + LF + up + b"\r", H + one + b"2,bad\r\n"),
        "last_is_cr_alone": (PLAIN + LF + start + CRLF + b"\r", H + one + b"2,bad\r\n"),
        "last_cut_off": (PLAIN + LF + start + LF + b"0,startup,41C8", H + one + b"2,bad\r\n"),
        "last_512_no_end": (PLAIN + LF + padded(start, 512), H + one),
        "last_512_cr_no_end": (PLAIN + LF + padded(start, 512) + b"\r", H + b"1,bad\r\n"),
        "last_513_no_end": (PLAIN + LF + padded(start, 513), H + b"1,bad\r\n"),
        "last_long_no_end": (PLAIN + LF + start + LF + b"7" * 20000, H + one + b"2,bad\r\n"),
        "header_5000_bytes": (b"h" * 5000 + LF + start + LF + up + LF, H + one + two),
        "header_513_crlf": (b"," * 513 + CRLF + start + CRLF, H + one),
        "header_empty": (LF + start + LF + up + LF, H + one + two),
        "header_empty_crlf": (CRLF + start + CRLF + up + CRLF, H + one + two),
        "header_is_a_start": (start + LF + up + LF, H + b"1,2,Empty,0,0,0\r\n"),
        "header_cr_then_call": (PLAIN + b"\r" + start + LF + up + LF, H + b"1,2,Empty,0,0,0\r\n"),
        "header_bytes": (bytes(x for x in range(256) if x != 10) + LF + start, H + one),
    }
    for name, (text, want) in sorted(cases.items()):
        got = m.replay(text)
        if got != want:
            sys.exit("ends/%s: model %r, by hand %r" % (name, got, want))
        write("ends/%s" % name, text, want)
    print("ends: %d traces" % len(cases))


# ---------------------------------------------------------------------------------------------------------------------
# an example night
# ---------------------------------------------------------------------------------------------------------------------


def night():
    z = Sheet(PLAIN, LF)

    def good(*a, **k):
        z.good(*a, end=LF, **k)

    t = {"22": "41B00000", "24.5": "41C40000", "29.25": "41EA0000", "31.5": "41FC0000", "33": "42040000", "36.75": "42130000",
         "52.5": "42520000", "60": "42700000", "60.25": "42710000", "47": "423C0000", "30": "41F00000", "27": "41D80000"}
    for k, v in t.items():
        assert m.of_pattern(v) == float(k)
    read = data(1, "0555")  # mcp3221, code 0x555
    look = data(2, "2580310000009500") + "00" * 9 + "00" * 9 + "00" + "0555"  # four voltages, then the input
    assert len(look) == 2 * (9 * 4 + 3)
    s15 = S()
    s12 = S(th="41400000")
    s12_powered = S(th="41400000", bias="BFA00000", st=1)
    s12_enabled = S(th="41400000", bias="BFA00000", st=2)
    s12_off = S(th="41400000", bias="BFA00000", st=0)
    ms = lambda h, mi, s, x=0: ((h * 60 + mi) * 60 + s) * 1000 + x
    # the clock starts with the bay, at nine in the evening
    good(L(ms(0, 0, 1), "status", t["22"]), 2, EMPTY, 0, note="asked too early: nothing is in the slot")
    good(L(ms(0, 0, 2), "start", t["22"], s=s15), 0, OFF, 18, note="threshold 15 dBm, bias -1.0 V, Enabled wanted")
    good(L(ms(0, 0, 3), "status", t["22"]), 0, OFF, 5, note="a first look: nothing is powered, every reading is 0")
    good(L(ms(0, 0, 5), "startup", t["22"]), 0, UP, 2, note="power-up, deadline 5200")
    good(L(5100, "update", t["22"]), 0, UP, 0)
    good(L(5200, "update", t["22"]), 0, UP, 0, note="at the deadline")
    good(L(5300, "update", t["22"]), 0, PW, 3, note="late: the interlocks are reset")
    good(L(5400, "update", t["22"]), 0, EN, 2, note="RF on")
    good(L(5500, "update", t["22"], rep=read), 0, EN, 1, note="the input power is read")
    good(L(ms(0, 30, 0), "status", t["29.25"], rep=look), 0, EN, 5)
    good(L(ms(1, 12, 40), "update", t["31.5"], out=1, rep=read), 0, TOUT, 2, note="output overdrive")
    good(L(ms(1, 12, 40, 100), "update", t["31.5"], rep=read), 0, TOUT, 0, note="it stays")
    good(L(ms(1, 13, 5), "status", t["31.5"], rep=look), 0, TOUT, 5)
    good(L(ms(1, 13, 30), "reset", t["31.5"]), 0, PW, 0, note="the keeper's reset")
    good(L(ms(1, 13, 30, 100), "update", t["31.5"]), 0, EN, 2)
    good(L(ms(1, 13, 30, 200), "update", t["31.5"], rep=read), 0, EN, 1)
    z.bad(L(ms(1, 20, 0), "settings", t["31.5"], s=s12.replace("C", "c")), LF, "small c in place of C")
    good(L(ms(1, 20, 25), "settings", t["31.5"], s=s12), 0, EN, 1, note="threshold 12 dBm: the output level alone")
    good(L(ms(1, 20, 25, 100), "update", t["31.5"], rep=read), 0, EN, 1)
    good(L(ms(2, 41, 7), "update", t["33"], refl=1, rep=read), 0, TREFL, 2, note="reflected overdrive")
    good(L(ms(2, 44, 0), "settings", t["33"], s=s12_powered), 0, PW, 1, note="bias -1.25 V, Powered wanted: the bias, and out of Tripped")
    good(L(ms(2, 44, 0, 100), "update", t["33"]), 0, PW, 0)
    good(L(ms(2, 50, 0), "settings", t["33"], s=s12_enabled), 0, PW, 0, note="Enabled wanted again: nothing to write, no event")
    good(L(ms(2, 50, 0, 100), "update", t["33"]), 0, EN, 2)
    good(L(ms(3, 30, 0), "update", t["52.5"], rep=read), 0, EN, 1, note="it is getting warm")
    good(L(ms(3, 38, 0), "update", t["60"], rep=read), 0, EN, 1, note="60.0 is no fault")
    good(L(ms(3, 38, 10), "update", t["60.25"]), 0, HOT, 3, note="over-temperature")
    good(L(ms(3, 50, 0), "update", t["47"]), 0, HOT, 0, note="cooler, and blocked still")
    good(L(ms(3, 50, 20), "reset", t["47"]), 9, HOT, 0, note="a reset does not help")
    good(L(ms(4, 5, 0), "update", "-"), 14, HALT, 2, cause=3, note="the keeper pulls the sensor's plug: halted")
    good(L(ms(4, 6, 0), "startup", t["30"]), 3, HALT, 0, note="a halted slot has to be started")
    good(L(ms(4, 6, 30), "start", t["30"], s=s12_enabled), 0, OFF, 18)
    good(L(ms(4, 6, 40), "startup", t["30"]), 0, UP, 2)
    good(L(ms(4, 6, 40, 300), "update", t["30"]), 0, PW, 3)
    good(L(ms(4, 6, 40, 400), "update", t["30"]), 0, EN, 2)
    good(L(ms(6, 0, 0), "status", t["27"], rep=look), 0, EN, 5)
    good(L(ms(8, 15, 0), "standby", t["27"]), 0, DOWN, 3, note="dawn; deadline 29700500")
    good(L(ms(8, 15, 0, 500), "update", t["27"]), 0, DOWN, 0)
    good(L(ms(8, 15, 0, 501), "update", t["24.5"]), 0, OFF, 0)
    good(L(ms(8, 16, 0), "settings", t["24.5"], s=s12_off), 0, OFF, 0, note="Off wanted: nobody powers it up by a reset")
    z.store("night")


if __name__ == "__main__":
    night()
    every()
    full()
    more_bad()
    each_byte()
    numbers()
    table()
    ends()
    with open(os.path.join(NIGHTS, "args"), "w") as f:
        f.writelines("%s.csv\n" % name for name, want in STORED)
    with open(os.path.join(NIGHTS, "stdout"), "wb") as f:
        f.writelines(b"%s.csv\r\n%s" % (name.encode(), want) for name, want in STORED)
