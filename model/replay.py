#!/usr/bin/env python3
"""A second calculation of what the replay program has to write, beside the proved one.

    replay.py < trace.csv > trace.out          the replay
    replay.py --rows < trace.csv               the same, and every row of the log beneath the line that added it

Worked out from document 01 (with SPECIFICATION.md and DECISIONS.md where 01 is silent) and from the original Rust.
Standard library only. It shares nothing with any crate.
"""

import math
import struct
import sys

# ---------------------------------------------------------------------------------------------------------------------
# binary32: every operation rounds once. A Python float is a binary64; one +, -, * or / of two binary32 done in binary64
# and then rounded to binary32 is the correctly rounded result (53 >= 2 * 24 + 2). For quotients in the subnormal range:
# a quotient that is no midpoint of two neighbours differs from each midpoint by 2^-49 of it or more, far above 2^-53, so
# that binary64 never carries it onto one. Left to look after are overflow, division by zero and NaN.
# ---------------------------------------------------------------------------------------------------------------------

NAN = float("nan")
INF = float("inf")


def f32(x):
    if x != x:
        return NAN
    try:
        return struct.unpack("<f", struct.pack("<f", x))[0]
    except OverflowError:  # rounds to an infinity
        return math.copysign(INF, x)


def add(a, b):
    return f32(a + b)


def sub(a, b):
    return f32(a - b)


def mul(a, b):
    return f32(a * b)


def div(a, b):
    if b == 0.0:
        if a != a or a == 0.0:
            return NAN
        return math.copysign(1.0, a) * math.copysign(1.0, b) * INF
    return f32(a / b)


def of_pattern(digits):
    return struct.unpack(">f", bytes.fromhex(digits))[0]


def cut(x):
    """Rust's `as u16`."""
    if x != x or x <= 0.0:
        return 0
    if x >= 65535.0:
        return 65535
    return int(x)


# Constants: the f32 nearest to the decimal.
V3_3 = f32(3.3)
V3_2 = f32(3.2)
V2_5 = f32(2.5)
V0_1 = f32(0.1)
COUNTS = f32(4096.0)
MAX_REFLECTED = f32(30.0)
HOT, COLD, MAX_INPUT = f32(60.0), f32(5.0), f32(20.0)
ADS_STEP = div(f32(3.434), COUNTS)


class Transform:
    def __init__(self, slope, offset):
        self.slope, self.offset = slope, offset

    def map(self, x):
        return add(mul(x, self.slope), self.offset)

    def invert(self, y):
        return div(sub(y, self.offset), self.slope)

    def same(self, other):
        return self.slope == other.slope and self.offset == other.offset


# ---------------------------------------------------------------------------------------------------------------------
# Conversions: a code, or None if refused for range.
# ---------------------------------------------------------------------------------------------------------------------


def dac7571_code(v):
    if v >= V3_3 or v < 0.0:
        return None
    return cut(mul(div(v, V3_3), COUNTS)) & 0xFFF


def ad5627_code(v):
    if not (0.0 <= v <= V2_5):
        return None
    code = cut(mul(div(v, V2_5), COUNTS))
    return code if code <= 0xFFF else None


def mcp3221_volts(word):
    return mul(div(f32(float(word % 4096)), COUNTS), V3_3)


def ads7924_volts(word):
    return mul(f32(float(word // 16)), ADS_STEP)


# ---------------------------------------------------------------------------------------------------------------------
# The bus: rows go to the log, replies are taken nine bytes at a time.
# ---------------------------------------------------------------------------------------------------------------------

LOG_BYTES = 65536
ROW = 16
ROOM = 20
REPLY_BYTES = 135
SIGNAL_ON, ENABLE_POWER = 0, 1
DAC7571, AD5627, ADS7924, MCP3221 = 0x4C, 0x0E, 0x49, 0x4D


class Failed(Exception):
    """A transfer that was not acknowledged."""


class Refused(Exception):
    """A value out of a chip's range."""


class Halt(Exception):
    def __init__(self, cause):
        self.cause = cause


class Absent(Exception):
    pass


class Log:
    def __init__(self, size=LOG_BYTES):
        self.bytes = bytearray(size)
        self.used = 0

    def free(self):
        return max(0, len(self.bytes) // ROW - self.used)

    def put(self, row):
        assert len(row) == ROW
        at = ROW * self.used
        self.bytes[at:at + ROW] = row
        self.used += 1


class Bus:
    def __init__(self, log, replies, slot=0):
        self.log, self.replies, self.slot, self.taken = log, replies, slot, 0

    def _row(self, kind, address, out, asked, status, data):
        row = bytes([16 * self.slot + kind, address, len(out), asked, status])
        row += bytes(out).ljust(3, b"\0") + bytes(data).ljust(8, b"\0")
        self.log.put(row)

    def pin(self, which, level):
        self._row(0, which, [level], 0, 0, b"")

    def wait(self, microseconds):
        self._row(4, 0, [microseconds >> 8, microseconds & 255], 0, 0, b"")

    def transfer(self, kind, address, out, asked):
        reply = self.replies[9 * self.taken:9 * self.taken + 9]
        assert len(reply) == 9
        self.taken += 1
        if reply[0] != 0:
            self._row(kind, address, out, asked, 1, b"")
            raise Failed()
        data = reply[1:1 + asked]
        self._row(kind, address, out, asked, 0, data)
        return data

    def write(self, address, out):
        self.transfer(1, address, out, 0)

    def write_read(self, address, command, asked):
        return self.transfer(2, address, [command], asked)

    def read(self, address, asked):
        return self.transfer(3, address, [], asked)


# The drivers, as far as the channel calls them.


def bias_set(bus, volts):
    code = dac7571_code(volts)
    if code is None:
        raise Refused()
    bus.write(DAC7571, [code >> 8, code & 255])


def ads7924_open(bus):
    bus.write(ADS7924, [0x16, 0xAA])
    bus.wait(500)
    bus.write(ADS7924, [0x00, 0x80])
    bus.write(ADS7924, [0x12, 0x20])
    bus.write(ADS7924, [0x00, 0xEC])


def ads7924_read(bus, command, asked):
    bus.write(ADS7924, [0x00, 0x00])
    data = bus.write_read(ADS7924, command, asked)
    bus.write(ADS7924, [0x00, 0x80])
    bus.write(ADS7924, [0x00, 0xEC])
    return [ads7924_volts(256 * data[i] + data[i + 1]) for i in range(0, asked, 2)]


def ads7924_alarm(bus):
    byte = bus.write_read(ADS7924, 0x01, 1)[0]
    return (byte & 15) & (byte >> 4)


def ad5627_open(bus):
    bus.write(AD5627, [0x2F, 0x00, 0x00])
    bus.write(AD5627, [0x3F, 0x00, 0x01])


def ad5627_set(bus, output, volts):
    code = ad5627_code(volts)
    if code is None:
        raise Refused()
    word = code * 16
    bus.write(AD5627, [output, word >> 8, word & 255])


def mcp3221_read(bus):
    data = bus.read(MCP3221, 2)
    return mcp3221_volts(256 * data[0] + data[1])


# ---------------------------------------------------------------------------------------------------------------------
# The channel
# ---------------------------------------------------------------------------------------------------------------------

OFF, POWERED, ENABLED = 0, 1, 2  # what the settings may ask for
DAC_A, DAC_B = 0, 1


class Settings:
    def __init__(self, text):
        floats = [of_pattern(text[8 * i:8 * i + 8]) for i in range(8)]
        self.threshold, self.bias = floats[0], floats[1]
        self.input = Transform(floats[2], floats[3])
        self.output = Transform(floats[4], floats[5])
        self.reflected = Transform(floats[6], floats[7])
        self.state = int(text[64])

    def same(self, other):
        return (
            self.threshold == other.threshold
            and self.bias == other.bias
            and self.state == other.state
            and self.input.same(other.input)
            and self.output.same(other.output)
            and self.reflected.same(other.reflected)
        )


class Given:
    """What a call is given beside its name: tick, temperature (None is failed), the three input pins, the watchdog."""

    def __init__(self, tick, temp, alert, out, refl, dog):
        self.tick, self.temp, self.alert, self.out, self.refl, self.dog = tick, temp, alert, out, refl, dog


def late(tick, deadline):
    return 1 <= (tick - deadline) % 2**32 <= 2147483647


class Channel:
    def __init__(self, settings):
        self.settings = settings
        self.state, self.detail = "Off", None  # detail: fault, trip source or deadline
        self.signal_on = self.enable_power = 0

    def name(self):
        if self.state in ("Blocked", "Tripped"):
            return "%s(%s)" % (self.state, self.detail)
        return self.state

    # -- pins

    def rf(self, bus, level):
        bus.pin(SIGNAL_ON, level)
        self.signal_on = level

    def power(self, bus, level):
        bus.pin(ENABLE_POWER, level)
        self.enable_power = level

    # -- actions; a failed transfer of the bias chip is a panic of the original

    def pinch_off(self, bus):
        try:
            bias_set(bus, V3_2)
        except (Failed, Refused):
            raise Halt(1)

    def start_powerup(self, bus):
        self.pinch_off(bus)
        self.power(bus, 1)

    def power_down(self, bus):
        self.rf(bus, 0)
        self.pinch_off(bus)
        self.power(bus, 0)

    def reset_interlocks(self, bus):
        self.rf(bus, 1)
        bus.wait(1000)
        self.rf(bus, 0)

    def enable_output(self, bus):
        s = self.settings
        if not (s.threshold > s.output.map(V0_1)):
            raise Halt(5)
        try:
            bias_set(bus, -s.bias)
        except Refused:
            raise Halt(6)
        except Failed:
            raise Halt(1)
        self.rf(bus, 1)

    def guard_enable(self, given):
        s = self.settings
        if given.dog:
            return False
        if s.threshold < s.output.map(V0_1):
            return False
        if s.state != ENABLED:
            return False
        return self.enable_power == 1

    # -- the table. Answers 'done', 'none' (no line for the state) or 'guard' (its guard is false).

    def event(self, bus, given, event, detail=None):
        state = self.state
        if event == "Fault":  # listed for every state
            self.power_down(bus)
            if state != "Blocked":  # Blocked keeps its first fault
                self.state, self.detail = "Blocked", detail
            return "done"
        if event == "Disable":
            if state == "Off":
                return "done"
            if state in ("Powerup", "Powered", "Enabled", "Tripped"):
                self.power_down(bus)
                self.state, self.detail = "Powerdown", (given.tick + 500) % 2**32
                return "done"
            return "none"
        if event == "InterlockReset":
            if state == "Off":
                if self.settings.state == OFF:
                    return "guard"
                self.start_powerup(bus)
                self.state, self.detail = "Powerup", (given.tick + 200) % 2**32
                return "done"
            if state == "Enabled":
                return "done"
            if state == "Tripped":
                self.state, self.detail = "Powered", None
                return "done"
            return "none"
        if event == "DisableRf":
            if state == "Enabled":
                self.rf(bus, 0)
            if state in ("Enabled", "Tripped"):
                self.state, self.detail = "Powered", None
                return "done"
            return "none"
        if event == "Trip":
            if state == "Enabled":
                self.rf(bus, 0)
                self.state, self.detail = "Tripped", detail
                return "done"
            return "none"
        assert event == "Update"
        if state == "Powerup":
            if not late(given.tick, self.detail):
                return "guard"
            self.reset_interlocks(bus)
            self.state, self.detail = "Powered", None
            return "done"
        if state == "Powered":
            if not self.guard_enable(given):
                return "guard"
            self.enable_output(bus)
            self.state, self.detail = "Enabled", None
            return "done"
        if state == "Powerdown":
            if not late(given.tick, self.detail):
                return "guard"
            self.state, self.detail = "Off", None
            return "done"
        return "none"

    # -- measurements

    def input_power(self, bus):
        try:
            volts = mcp3221_read(bus)
        except Failed:
            raise Halt(1)
        return self.settings.input.map(volts)

    # -- the calls; each gives the number of its answer, or raises Halt

    def do_startup(self, bus, given):
        self.event(bus, given, "InterlockReset")
        return 0

    def do_standby(self, bus, given):
        self.event(bus, given, "Disable")
        return 0

    def do_reset(self, bus, given):
        return {"done": 0, "none": 9, "guard": 10}[self.event(bus, given, "InterlockReset")]

    def do_update(self, bus, given):
        if given.temp is None:
            raise Halt(3)
        fault = None
        if given.temp > HOT:
            fault = "OverTemperature"
        elif given.temp < COLD:
            fault = "UnderTemperature"
        elif given.alert == 0:
            fault = "SupplyAlert"
        if fault is not None:
            self.event(bus, given, "Fault", fault)
        if self.state == "Enabled":
            source = None
            if self.input_power(bus) > MAX_INPUT:
                source = "Input"
            elif given.out == 1:
                source = "Output"
            elif given.refl == 1:
                source = "Reflected"
            if source is not None:
                self.event(bus, given, "Trip", source)
        self.event(bus, given, "Update")
        return 0

    def do_settings(self, bus, given, new):
        old = self.settings
        if not old.same(new):
            bias_changed = new.bias != old.bias
            output_changed = old.output.map(old.threshold) != new.output.map(new.threshold)
            reflected_changed = old.reflected.map(MAX_REFLECTED) != new.reflected.map(MAX_REFLECTED)
            self.settings = new
            try:
                if output_changed:
                    ad5627_set(bus, DAC_B, new.output.invert(new.threshold))
                if reflected_changed:
                    ad5627_set(bus, DAC_A, new.reflected.invert(MAX_REFLECTED))
            except Refused:
                return 11
            except Failed:
                return 12
            if bias_changed:
                try:
                    bias_set(bus, -new.bias)
                except Refused:
                    return 11
                except Failed:
                    raise Halt(1)
        if new.state == OFF:
            self.event(bus, given, "Disable")
        elif new.state == POWERED and self.state in ("Enabled", "Tripped"):
            self.event(bus, given, "DisableRf")
        elif self.state == "Off":
            self.event(bus, given, "InterlockReset")
        return 0

    def do_status(self, bus, given, millivolts=(0, 0)):
        try:
            volts = ads7924_read(bus, 0x82, 8)
        except Failed:
            raise Halt(1)
        if given.temp is None:
            raise Halt(3)
        power = self.input_power(bus)
        reflected, output = (div(f32(float(mv)), f32(1000.0)) for mv in millivolts)
        ohms = div(f32(100.0), f32(0.1))
        self.numbers = [
            given.temp,
            mul(volts[0], div(ohms, f32(4300.0))),
            mul(volts[1], div(ohms, f32(6200.0))),
            mul(volts[3], V2_5),
            power,
            self.settings.reflected.map(reflected),
            self.settings.output.map(output),
        ]
        return 0


def start_channel(bus, settings, present=True):
    """Gives the channel, or raises Halt or Absent."""
    channel = Channel(settings)
    channel.rf(bus, 0)
    channel.power(bus, 0)
    channel.pinch_off(bus)
    try:
        ads7924_open(bus)
        ads7924_read(bus, 0x82 + 2 * 3, 2)
        alarm = ads7924_alarm(bus)
    except Failed:
        raise Halt(1)
    if alarm != 0:
        raise Halt(2)
    try:
        ad5627_open(bus)
        if not present:
            raise Absent()
        mcp3221_read(bus)
    except Failed:
        raise Absent()
    try:
        ad5627_set(bus, DAC_B, settings.output.invert(settings.threshold))
        ad5627_set(bus, DAC_A, settings.reflected.invert(MAX_REFLECTED))
    except Refused:
        raise Halt(4)
    except Failed:
        raise Halt(1)
    return channel


# ---------------------------------------------------------------------------------------------------------------------
# The rack. Of its eight slots the replay names only slot 0; the other seven stay empty.
# ---------------------------------------------------------------------------------------------------------------------


class Rack:
    def __init__(self, log=None):
        self.log = Log() if log is None else log
        self.slots = [None] * 8  # None is empty, ('Halted', cause) halted, a Channel a channel
        self.cause = None  # of the last answer 14, for reports only

    def call(self, name, given, replies, settings, slot=0, places=7):
        """The number of the answer. Tests in the order of 01's table."""
        if slot > 7:
            return 1
        here = self.slots[slot]
        if name != "start":
            if here is None:
                return 2
            if isinstance(here, tuple):
                return 3
        elif isinstance(here, Channel):
            return 4
        if self.log.free() < ROOM:
            return 5
        if len(replies) < REPLY_BYTES:
            return 6
        if name == "status" and places < 7:
            return 7
        if name in ("update", "status") and given.temp is not None and not math.isfinite(given.temp):
            return 8
        bus = Bus(self.log, replies, slot)
        before = self.log.used
        try:
            if name == "start":
                try:
                    self.slots[slot] = start_channel(bus, settings)
                    answer = 0
                except Absent:
                    self.slots[slot] = None
                    answer = 13
            elif name == "startup":
                answer = here.do_startup(bus, given)
            elif name == "update":
                answer = here.do_update(bus, given)
            elif name == "reset":
                answer = here.do_reset(bus, given)
            elif name == "standby":
                answer = here.do_standby(bus, given)
            elif name == "settings":
                answer = here.do_settings(bus, given, settings)
            else:
                answer = here.do_status(bus, given)
        except Halt as halt:
            bus.pin(SIGNAL_ON, 0)
            bus.pin(ENABLE_POWER, 0)
            self.slots[slot] = ("Halted", halt.cause)
            self.cause = halt.cause
            answer = 14
        assert self.log.used - before <= ROOM
        now = self.slots[slot]
        if isinstance(now, Channel):  # 01's rule on pins, after any calls
            assert (now.signal_on == 1) == (now.state == "Enabled")
            assert (now.enable_power == 1) == (now.state in ("Powerup", "Powered", "Enabled", "Tripped"))
        return answer

    def shown(self, slot=0):
        here = self.slots[slot]
        if here is None:
            return "Empty", 0, 0
        if isinstance(here, tuple):
            return "Halted", 0, 0
        return here.name(), here.enable_power, here.signal_on


# ---------------------------------------------------------------------------------------------------------------------
# A line of a trace
# ---------------------------------------------------------------------------------------------------------------------

CALLS = (b"start", b"startup", b"update", b"reset", b"standby", b"settings", b"status")
DIGITS = frozenset(b"0123456789")
HEX = frozenset(b"0123456789ABCDEF")


def all_in(text, signs):
    return all(byte in signs for byte in text)


def parse(line):
    """(name, Given, replies, Settings or None), or None if the line does not fit."""
    if len(line) > 512:
        return None
    columns = line.split(b",")
    if len(columns) != 9:
        return None
    tick, call, temp, alert, out, refl, dog, replies, settings = columns
    if len(tick) == 0 or not all_in(tick, DIGITS):
        return None
    tick = int(tick)
    if tick >= 2**32:
        return None
    if call not in CALLS:
        return None
    if temp == b"-":
        temp = None
    elif len(temp) == 8 and all_in(temp, HEX):
        temp = of_pattern(temp.decode("ascii"))
    else:
        return None
    flags = []
    for flag in (alert, out, refl, dog):
        if flag not in (b"0", b"1"):
            return None
        flags.append(int(flag))
    if len(replies) > 2 * REPLY_BYTES or len(replies) % 2 != 0 or not all_in(replies, HEX):
        return None
    replies = bytes.fromhex(replies.decode("ascii")).ljust(REPLY_BYTES, b"\0")
    if call in (b"start", b"settings"):
        if len(settings) != 65 or not all_in(settings[:64], HEX) or settings[64:] not in (b"0", b"1", b"2"):
            return None
        settings = Settings(settings.decode("ascii"))
    else:
        if settings != b"":
            return None
        settings = None
    return call.decode("ascii"), Given(tick, temp, *flags), replies, settings


def lines_of(data):
    """The lines of the input without their ends. Only LF ends a line; one CR directly before it belongs to the end.
    A last piece without LF is a line if it has a byte, and keeps all of its bytes."""
    pieces = data.split(b"\n")
    last = pieces.pop()
    lines = [piece[:-1] if piece.endswith(b"\r") else piece for piece in pieces]
    if last != b"":
        lines.append(last)
    return lines


HEADER = b"line,answer,state,power,rf,rows\r\n"


class Replay:
    def __init__(self):
        self.rack = Rack()
        self.count = 0

    def line(self, line):
        """The output line, with its end, for a line after the header, given without its end."""
        self.count += 1
        parsed = parse(line)
        if parsed is None:
            return b"%d,bad\r\n" % self.count
        answer = self.rack.call(*parsed)
        state, power, rf = self.rack.shown()
        return b"%d,%d,%s,%d,%d,%d\r\n" % (self.count, answer, state.encode("ascii"), power, rf, self.rack.log.used)


def replay(data):
    run = Replay()
    return HEADER + b"".join(run.line(line) for line in lines_of(data)[1:])


# ---------------------------------------------------------------------------------------------------------------------
# The rows, for people
# ---------------------------------------------------------------------------------------------------------------------


def row_text(row):
    kind, address, nout, nin, status = row[0] % 16, row[1], row[2], row[3], row[4]
    out, data = row[5:5 + nout], row[8:8 + nin]
    tail = "" if status == 0 else "  FAILED"
    if kind == 0:
        return "%s %s" % (("signal_on", "enable_power")[address], ("low", "high")[out[0]])
    if kind == 4:
        return "wait %d us" % (256 * out[0] + out[1])
    chip = {DAC7571: "dac7571", AD5627: "ad5627", ADS7924: "ads7924", MCP3221: "mcp3221"}[address]
    if kind == 1:
        return "%s write %s%s" % (chip, out.hex(" ").upper(), tail)
    if kind == 2:
        return "%s write %s read %s%s" % (chip, out.hex(" ").upper(), data.hex(" ").upper(), tail)
    return "%s read %s%s" % (chip, data.hex(" ").upper(), tail)


def with_rows(data):
    run = Replay()
    text = [HEADER.decode("ascii").rstrip()]
    for line in lines_of(data)[1:]:
        before = run.rack.log.used
        run.rack.cause = None
        text.append(run.line(line).decode("ascii").rstrip())
        if run.rack.cause is not None:
            text[-1] += "   [cause %d]" % run.rack.cause
        for i in range(before, run.rack.log.used):
            row = bytes(run.rack.log.bytes[ROW * i:ROW * i + ROW])
            text.append("        %4d  %s  %s" % (i, row.hex(), row_text(row)))
    return "\n".join(text) + "\n"


def main():
    data = sys.stdin.buffer.read()
    if sys.argv[1:] == ["--rows"]:
        sys.stdout.write(with_rows(data))
    else:
        sys.stdout.buffer.write(replay(data))


if __name__ == "__main__":
    main()
