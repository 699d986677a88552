#!/usr/bin/env python3
"""An adapter of the conformance kit with no archive beneath it: the rule alone, who flies and by which margin, translated to be read beside docs/REQUEST.md.

    ./conform --level rule python3 adapter.py

Python's floats have 64 bits and another sine, so margins differ in their last places; what a tick decides by is rounded to 32 bits first, as it is answered. Rate control
(ADRC) is left out: the torque is answered as zeros, which the rule does not look at. All that the level of the rule asks is here: setup, tick, route, exchange, flags.
"""

import math
import struct
import sys

# words, little-endian, floats as their bits


def f32(x):
    """The nearest float of 32 bits."""
    try:
        return struct.unpack("<f", struct.pack("<f", x))[0]
    except OverflowError:
        return math.copysign(math.inf, x)


def floats(data):
    return list(struct.unpack(f"<{len(data) // 4}f", data))


def words(data):
    return list(struct.unpack(f"<{len(data) // 4}I", data))


def read_bytes(word):
    """Parts joined by +, each hexadecimal digits, *N behind them for so many times; - for none."""
    parts = [] if word == "-" else [part.split("*") for part in word.split("+")]
    return b"".join(bytes.fromhex(part[0]) * (int(part[1]) if len(part) > 1 else 1) for part in parts)


# vectors and attitudes (000); a matrix is its rows

GRAVITY = [0.0, 0.0, f32(9.81)]


def dot(a, b):
    return a[0] * b[0] + a[1] * b[1] + a[2] * b[2]


def cross(a, b):
    return [a[1] * b[2] - a[2] * b[1], a[2] * b[0] - a[0] * b[2], a[0] * b[1] - a[1] * b[0]]


def columns(m):
    return [list(column) for column in zip(*m)]


def times(m, v):
    return [dot(row, v) for row in m]


def clean(v):
    return [x if math.isfinite(x) else 0.0 for x in v]


def normalize(v):
    """Refused, with None, unless the norm is finite and above 1e-9."""
    norm = math.sqrt(dot(v, v)) if all(map(math.isfinite, v)) else math.inf
    return [x / norm for x in v] if math.isfinite(norm) and norm > 1e-9 else None


def rotation(w, x, y, z):
    return [
        [1 - 2 * (y * y + z * z), 2 * (x * y - w * z), 2 * (x * z + w * y)],
        [2 * (x * y + w * z), 1 - 2 * (x * x + z * z), 2 * (y * z - w * x)],
        [2 * (x * z - w * y), 2 * (y * z + w * x), 1 - 2 * (x * x + y * y)],
    ]


def desired_attitude(b3, yaw):
    """A heading that is no number gives a zero heading vector, and so a refusal; so does one beyond 8192."""
    near = math.isfinite(yaw) and abs(yaw) <= 8192
    heading = [math.cos(yaw), math.sin(yaw), 0.0] if near else [0.0] * 3
    b2 = normalize(cross(b3, heading))
    return b2 and columns([cross(b2, b3), b2, b3])


def feedforward(acc, jerk, r_d, yaw_rate):
    """The rate that the trajectory and the heading rate ask for, in R_d's axes; refused where the thrust is next to nothing."""
    thrust = [g - a for g, a in zip(GRAVITY, acc)]
    c = math.sqrt(dot(thrust, thrust))
    if not c > 1e-3:
        return None
    world = [-x / c for x in cross([x / c for x in thrust], jerk)]
    x, y, z = times(columns(r_d), world)
    return clean([x, y, z + yaw_rate])


# the trajectory and its clock (001)


def mended(t):
    return t if math.isfinite(t) and t > f32(1e-3) else f32(1e-3)


class Segment:
    """Three quintics from p0, v0, a0 to pf, vf, af."""

    def __init__(self, leg):
        self.t = t = mended(leg[18])
        self.axes = []
        for axis in range(3):
            p0, v0, a0, pf, vf, af = (leg[axis + 3 * k] for k in range(6))
            p0, v0, a0 = clean([p0, v0, a0])
            pf, (vf, af) = pf if math.isfinite(pf) else p0, clean([vf, af])
            dp, dv, da = pf - (p0 + v0 * t + a0 * t * t / 2), vf - (v0 + a0 * t), af - a0
            c5 = (720 * dp - 360 * t * dv + 60 * t * t * da) / t**5 / 120
            c4 = (-360 * t * dp + 168 * t * t * dv - 24 * t**3 * da) / t**5 / 24
            c3 = (60 * t * t * dp - 24 * t**3 * dv + 3 * t**4 * da) / t**5 / 6
            self.axes.append((c5, c4, c3, a0 / 2))

    def at(self, time):
        """Acceleration and jerk there."""
        t = min(max(time, 0.0), self.t)
        acc = [((20 * c5 * t + 12 * c4) * t + 6 * c3) * t + 2 * c2 for c5, c4, c3, c2 in self.axes]
        return acc, [(60 * c5 * t + 24 * c4) * t + 6 * c3 for c5, c4, c3, _ in self.axes]


def refused_route(data):
    """After 4: 6, 5, 6, 7."""
    if len(data) < 8:
        return 6
    count, back = words(data[-8:])
    if not 1 <= count <= 32:
        return 5
    if back != 76 * count or len(data) != 76 * count + 8:
        return 6
    legs = [floats(data[76 * k : 76 * k + 76]) for k in range(count)]
    return 7 if any(a[9:18][k] != b[k] for a, b in zip(legs, legs[1:]) for k in range(9)) else 0


def flown(data, time):
    """The first leg whose end, a running f32 sum of mended durations, is above the time; past all ends the last one at its duration."""
    start = 0.0
    for k in range(len(data) // 76):
        leg = floats(data[76 * k : 76 * k + 76])
        end = f32(start + mended(leg[18]))
        if end > time:
            return Segment(leg), time - start
        start = end
    segment = Segment(leg)
    return segment, segment.t


class Filter:
    """The gyro's low-pass (002)."""

    def __init__(self, fc, fs):
        w = 2 * math.pi * fc / fs
        alpha = math.sin(w) / math.sqrt(2)
        cos = math.cos(w)
        self.b, self.a1, self.a2 = (1 - cos) / 2 / (1 + alpha), -2 * cos / (1 + alpha), (1 - alpha) / (1 + alpha)
        self.x1 = self.x2 = self.y1 = self.y2 = 0.0

    def step(self, x):
        x = x if math.isfinite(x) else 0.0
        y = self.b * (x + 2 * self.x1 + self.x2) - self.a1 * self.y1 - self.a2 * self.y2
        y = y if math.isfinite(y) else 0.0
        self.x2, self.x1, self.y2, self.y1 = self.x1, x, self.y1, y
        return y


# the shield, and the joint tick


def released(engaged, enter, exit, margin):
    """Whether the planner flies after this margin. THE rule: released by a finite margin strictly above exit and by nothing else, at once; engaged by a
    margin that is not finite or below enter; in between it stays as it was."""
    if engaged:
        return math.isfinite(margin) and margin > exit
    return not (not math.isfinite(margin) or margin < enter)


def thresholds(enter, exit):
    enter = enter if math.isfinite(enter) and enter > 0 else f32(0.1)
    return enter, exit if math.isfinite(exit) and exit > enter else f32(2 * enter)


class Flight:
    def __init__(self, data):
        w = floats(data)
        self.k_r, self.set, self.profile = w[0:3], w[9:12], words(data)[50]
        (self.enter, self.exit), self.engaged = thresholds(w[12], w[13]), True
        self.governor, self.time = w[14:17], 0.0
        self.segment = Segment(w[17:36])
        self.filters = [Filter(w[48], w[49]) for _ in range(3)]

    def exchange(self, leg):
        """Shield, ADRC and filters go on; the clock is set to 0."""
        self.segment, self.time = Segment(floats(leg)), 0.0

    def advance(self, error, dt):
        low, high, least = self.governor
        least = min(max(least, 0.0), 1.0) if math.isfinite(least) else 0.0
        if not all(map(math.isfinite, (error, low, high))) or high <= low:
            gate = least
        elif error <= low:
            gate = 1.0
        elif error >= high:
            gate = least
        else:
            gate = 1 - (error - low) / (high - low) * (1 - least)
        if math.isfinite(dt) and dt > 0:
            self.time = f32(self.time + gate * dt)

    def margin(self, psi, squared):
        k_r, lambda_j, psi_max = self.set
        if not (math.isfinite(psi) and math.isfinite(squared) and math.isfinite(lambda_j) and lambda_j > 0):
            return -math.inf
        by_psi, by_rate = psi_max - psi, 2 * k_r * (2 - psi) / lambda_j - squared
        margin = f32(by_psi if by_psi < by_rate else by_rate)
        return margin if math.isfinite(margin) else -math.inf

    def guide(self, r, omega, acc, jerk, yaw, yaw_rate):
        """The fallback, psi and the margin."""
        nowhere = [0.0] * 3, math.nan, -math.inf
        b3 = normalize([g - a for g, a in zip(GRAVITY, acc)])
        if b3 is None:
            return nowhere
        if self.profile == 1:
            # a rotor lost: toward the thrust axis alone, and yaw is not read
            v = times(columns(r), b3)
            psi = 1 - dot(columns(r)[2], b3)
            return [-self.k_r[0] * 2 * v[1], self.k_r[1] * 2 * v[0], 0.0], psi, self.margin(psi, omega[0] ** 2 + omega[1] ** 2)
        r_d = desired_attitude(b3, yaw)
        if r_d is None:
            return nowhere
        # R_dᵀR, row by row; its transpose is RᵀR_d
        turn = [[dot(a, b) for b in columns(r)] for a in columns(r_d)]
        psi = (3 - turn[0][0] - turn[1][1] - turn[2][2]) / 2
        error = [turn[2][1] - turn[1][2], turn[0][2] - turn[2][0], turn[1][0] - turn[0][1]]
        fallback, ahead = clean([-k * e for k, e in zip(self.k_r, error)]), feedforward(acc, jerk, r_d, yaw_rate)
        if ahead is not None:
            # a turn that was asked for is no error
            omega = [own - asked for own, asked in zip(omega, times(columns(turn), ahead))]
            fallback = [x + y for x, y in zip(fallback, ahead)]
        return fallback, psi, self.margin(psi, dot(omega, omega))

    def tick(self, data, route=None):
        w, planner = floats(data), words(data)[11:14]
        omega = [own.step(x) for own, x in zip(self.filters, w[0:3])]
        self.advance(w[7], w[10])
        segment, at = (self.segment, self.time) if route is None else flown(route[:-8], self.time)
        acc, jerk = map(clean, segment.at(at))
        fallback, psi, margin = self.guide(rotation(*w[3:7]), omega, acc, jerk, w[8], w[9])
        self.engaged = not released(self.engaged, self.enter, self.exit, margin)
        if self.engaged:
            command = struct.pack("<3f", *clean(map(f32, fallback)))
        else:
            # the planner's words in bits, those that are not finite made zero; with a rotor lost the third too
            command = [0 if bits >> 23 & 255 == 255 else bits for bits in planner]
            command = struct.pack("<3I", *command[:2], 0 if self.profile == 1 else command[2])
        return bytes(12) + command + struct.pack("<I3f", self.engaged, self.time, f32(psi), margin)


def flags(margins, enter, exit):
    (enter, exit), engaged, told = thresholds(enter, exit), True, bytearray()
    for margin in margins:
        engaged = not released(engaged, enter, exit, margin)
        told.append(engaged)
    return bytes(told)


def refused_set_up(data):
    if len(data) != 204:
        return 2
    fc, fs = floats(data)[48:50]
    return 10 if words(data)[50] > 1 else 0 if fc > 0 and fs > 0 and fc < f32(fs / 2) else 11


def main():
    flight = None
    for line in sys.stdin:
        call, *given = line.split(" ")
        given = [read_bytes(word.strip()) for word in given] if call in ("setup", "tick", "route", "exchange", "flags") else []
        number, told = 0, b""
        if call == "setup" and len(given) == 1:
            number = refused_set_up(given[0])
            flight = flight if number else Flight(given[0])
        elif call == "exchange" and flight:
            number = 2 if len(given[0]) != 76 else flight.exchange(given[0]) or 0
        elif call == "tick" and flight and len(given) == 1:
            number = 2 if len(given[0]) != 68 else 0
            told = b"" if number else flight.tick(given[0])
        elif call == "route" and flight and len(given) == 2:
            number = 2 if len(given[0]) != 68 else refused_route(given[1])
            told = b"" if number else flight.tick(*given)
        elif call == "flags" and len(given) == 3:
            number = 9 if len(given[0]) % 4 or len(given[0]) > 4 * 65535 else 0
            told = b"" if number else flags(floats(given[0]), floats(given[1])[0], floats(given[2])[0]) or None
        else:
            print("unsupported")
            continue
        print(number, told.hex()) if told else print(number, "-") if told is None else print(number)


main()
