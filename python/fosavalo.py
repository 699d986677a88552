"""Fosavalo in Python: the proved flight core as a shared library, in the shape of the Rust crate (host/fosavalo). One file, no dependency; Python 3.8 or newer.

    from fosavalo import Image, Pilot, SetUp, TickInput

    image = Image.set_up(SetUp.falcon_quad())   # 396 bytes, all the state there is
    answer = image.tick(TickInput(yaw=0.5))
    assert answer.pilot is Pilot.PLANNER

libfosavalo.so, and for a desk libfosavalo_desk.so, are looked for in the folder FOSAVALO_LIB_DIR where that is set; else beside this file, in the distribution that it
is part of, and where the system has libraries. One of another version is refused.

Numbers become the nearest 32-bit floats, so 0.1 reads back as 0.10000000149011612. A field that is no number is a TypeError that names it. Where a call takes a value,
bytes may stand in its place: the words themselves, of any bits and any length, which the core judges. A refused call raises a Refusal and has changed nothing.
A flight that is longer than a log is kept as a LogSeries, and SeriesCheck checks logs that go on as the one flight that they are. include/fosavalo.h says more of
what each number means.
"""

import ctypes
import enum
import os
import platform
import sys
from array import array
from dataclasses import dataclass, field, fields

VERSION = "0.15.0"

IMAGE_BYTES, SETUP_BYTES, TICK_BYTES, ANSWER_BYTES = 396, 204, 68, 40
LEG_BYTES, ROUTE_TRAILER_BYTES, MOST_LEGS, SAMPLE_BYTES, DEEPEST_REPEAT = 76, 8, 32, 52, 4
RECORD_BYTES, LOG_TRAILER_BYTES, MOST_RECORDS, MOST_MARGINS, LOG_RIGHT = 108, 12, 65535, 65535, 0xFFFFFFFF
# what a LogSeries puts into a log, one fewer than fit: so each can be checked behind one record more
MOST_IN_SERIES = MOST_RECORDS - 1
DESK_BYTES, DESK_SETUP_BYTES, STICKS_BYTES = 60, 36, 12
EMPTY_LOG = bytes([0, 0, 0, 0, 0, 0, 0, 0, RECORD_BYTES, 0, 0, 0])

_MEANINGS = (
    "done",
    f"the image is not {IMAGE_BYTES} bytes long",
    f"the input is not {SETUP_BYTES} bytes long at set-up, {LEG_BYTES} at an exchange, {TICK_BYTES} at a tick and in a log, "
    "or what takes a log's count, its verdict or a route's length is not 4",
    f"the answer is not {ANSWER_BYTES} bytes long, or the sample not {SAMPLE_BYTES}",
    "the image is none that set-up, a tick or an exchange leaves",
    f"a route has 1 to {MOST_LEGS} legs",
    f"the route's length or its bytes back do not go with its count of legs of {LEG_BYTES} bytes, with {ROUTE_TRAILER_BYTES} more",
    "a leg of the route does not start where the one before it ends",
    f"the log's length, its count, its bytes back and its last word, {RECORD_BYTES}, do not go together",
    f"the buffer has no room for {RECORD_BYTES} bytes more, or the log has {MOST_RECORDS} records; or there is not a flag for each "
    f"margin, or more than {MOST_MARGINS} of them; or a pattern's route does not fit its buffer",
    "the profile is neither 0 nor 1",
    "the gyro would not be filtered: the cut-off fc has to be above 0 and below half of the sample rate fs; one below fs / 25586 would switch the gyro off",
    "the pattern has a tag, a count, a depth or a length that none has",
    "the log has no record at that place",
    f"the record is not {RECORD_BYTES} bytes long",
    f"the desk is not {DESK_BYTES} bytes long",
    f"what is said of the sticks is not {DESK_SETUP_BYTES} bytes long at set-up, {STICKS_BYTES} at a tick",
)


class Refusal(Exception):
    """Why a call was refused: `number`, or None where the core was not called; `meaning` in words; and `leg`, of number 7 where a Route is made, the leg that does
    not start where the one before it ends, counted from 0."""

    def __init__(self, number, meaning=None, leg=None):
        self.number, self.leg = number, leg
        self.meaning = meaning or (Refusal.words(number) if leg is None else f"leg {leg + 1} of the route does not start where leg {leg} ends")
        super().__init__(f"refused{'' if number is None else f' ({number})'}: {self.meaning}")

    @staticmethod
    def words(number):
        """What a call's number means."""
        return _MEANINGS[number] if 0 <= number < len(_MEANINGS) else "a number that this version has no words for"

    @staticmethod
    def check(number):
        """Raises the refusal of a call's number, unless it is 0."""
        if number != 0:
            raise Refusal(number)


class Pilot(enum.IntEnum):
    """Whose rate command is flown: the flag's 0 and 1."""

    PLANNER = 0
    FALLBACK = 1

    def __str__(self):
        return self.name.lower()


class Profile(enum.IntEnum):
    """What there is to fly with: all rotors, or all but one."""

    WHOLE = 0
    LOST_ROTOR = 1

    def __str__(self):
        return self.name.lower().replace("_", " ")


# ---- words in bytes, little-endian. What a field is made of is told by a kind: float, int, Pilot, Profile, a struct, or a pair of these with how many there are


def _wrong(name, asked, value):
    return TypeError(f"{name} has to be {asked}, not {value!r}")


def _float(value, name):
    if isinstance(value, (str, bytes, bytearray)):
        raise _wrong(name, "a number", value)
    try:
        return float(value)
    except (TypeError, ValueError):
        raise _wrong(name, "a number", value) from None


def _whole(value, name, bits):
    if isinstance(value, bool) or not hasattr(value, "__index__") or not 0 <= value.__index__() < 1 << bits:
        raise _wrong(name, f"a whole number of {bits} bits", value)
    return value.__index__()


def _bytes(data, name="data"):
    # not bytes(data), which takes a number for a length
    try:
        with memoryview(data) as view:
            return view.tobytes()
    except TypeError:
        raise _wrong(name, "bytes", data) from None


def _size(kind):
    if isinstance(kind, tuple):
        return _size(kind[0]) * kind[1]
    return sum(_size(each) for each in kind._kinds) if issubclass(kind, _Words) else 4


def _put(kind, value, name):
    if isinstance(kind, tuple):
        one, count = kind
        try:
            parts = list(value)
        except TypeError:
            parts = []
        if len(parts) != count:
            raise _wrong(name, f"{count} of {one.__name__}", value)
        return b"".join(_put(one, part, f"{name}[{k}]") for k, part in enumerate(parts))
    if kind is float:
        return bytes(ctypes.c_float(_float(value, name)))
    if issubclass(kind, _Words):
        if not isinstance(value, kind):
            raise _wrong(name, f"a {kind.__name__}", value)
        return b"".join(_put(each, getattr(value, own.name), f"{name}.{own.name}") for each, own in zip(kind._kinds, fields(kind)))
    if kind is not int:
        try:
            value = kind(value)
        except ValueError:
            raise _wrong(name, f"a {kind.__name__}", value) from None
    return _whole(value, name, 32).to_bytes(4, "little")


def _take(kind, data, at):
    if isinstance(kind, tuple):
        return tuple(_take(kind[0], data, at + k * _size(kind[0])) for k in range(kind[1]))
    if kind is float:
        return ctypes.c_float.from_buffer_copy(data, at).value
    if issubclass(kind, _Words):
        parts = []
        for each in kind._kinds:
            parts.append(_take(each, data, at))
            at += _size(each)
        return kind(*parts)
    word = int.from_bytes(data[at : at + 4], "little")
    if kind is Pilot:
        # a flag that is neither 0 nor 1, which no tick writes, counts as the fallback's
        return Pilot(min(word, 1))
    if kind is Profile and word > 1:
        raise Refusal(10)
    return kind(word)


class _Words:
    """A value whose words stand one after another."""

    _kinds, _refusal = (), 2

    def to_bytes(self):
        return _put(type(self), self, type(self).__name__)

    @classmethod
    def from_bytes(cls, data):
        """Refused where these are too few or too many."""
        data = _bytes(data)
        if len(data) != _size(cls):
            raise Refusal(cls._refusal)
        return _take(cls, data, 0)


_ZERO = (0.0, 0.0, 0.0)


def _given(kind, value, name):
    """The words of a value; bytes are the words themselves."""
    return _bytes(value) if isinstance(value, (bytes, bytearray, memoryview)) else _put(kind, value, name)


@dataclass
class Gains(_Words):
    """Gains of the attitude controller, axis by axis; j is the inertia, kg m^2."""

    k_r: tuple = (0.6, 0.6, 0.15)
    k_omega: tuple = (0.12, 0.12, 0.35)
    j: tuple = (0.0217, 0.0217, 0.04)
    _kinds = ((float, 3),) * 3


@dataclass
class RecoverableSet(_Words):
    """What the margin is measured against: the smaller of psi_max - psi and 2 k_r (2 - psi) / lambda_j - |error|^2."""

    k_r: float = 1.0
    lambda_j: float = 1.0
    psi_max: float = 1.75
    _kinds = (float,) * 3


@dataclass
class Governor(_Words):
    """The pace of the trajectory's clock: full up to a tracking error of err_lo, g_min from err_hi on, in metres."""

    err_lo: float = 0.2
    err_hi: float = 1.0
    g_min: float = 0.25
    _kinds = (float,) * 3


@dataclass
class Leg(_Words):
    """A leg of a route, and the segment of a set-up: from p0, v0, a0 to pf, vf, af in t seconds; north, east, down, in metres."""

    p0: tuple = _ZERO
    v0: tuple = _ZERO
    a0: tuple = _ZERO
    pf: tuple = _ZERO
    vf: tuple = _ZERO
    af: tuple = _ZERO
    t: float = 1.0
    _kinds = ((float, 3),) * 6 + (float,)

    def sample(self, time):
        """Where the segment is at a time: that of a route of this one leg."""
        return _sample(_route(self.to_bytes()), time)


Segment = Leg


@dataclass
class AdrcGains(_Words):
    """Rate control of an axis."""

    omega_o: float
    omega_c: float
    b0: float
    tau: float
    _kinds = (float,) * 4


@dataclass
class GyroFilter(_Words):
    """The gyro's filter, Hz: the cut-off fc has to be above 0 and below half of the sample rate fs, else set-up is refused."""

    fc: float = 80.0
    fs: float = 1000.0
    _kinds = (float,) * 2


def _quad():
    tilt = AdrcGains(40.0, 12.0, 60.0, 0.0125)
    return tilt, AdrcGains(40.0, 12.0, 60.0, 0.0125), AdrcGains(30.0, 3.0, 18.0, 0.025)


@dataclass
class SetUp(_Words):
    """All that a flight is set up with; without arguments falcon_quad(). dataclasses.replace gives one that differs."""

    gains: Gains = field(default_factory=Gains)
    set: RecoverableSet = field(default_factory=RecoverableSet)
    enter: float = 0.5
    exit: float = 1.0
    governor: Governor = field(default_factory=Governor)
    segment: Leg = field(default_factory=Leg)
    adrc: tuple = field(default_factory=_quad)
    filter: GyroFilter = field(default_factory=GyroFilter)
    profile: Profile = Profile.WHOLE
    _kinds = (Gains, RecoverableSet, float, float, Governor, Leg, (AdrcGains, 3), GyroFilter, Profile)

    @classmethod
    def falcon_quad(cls):
        """relay's own gains for its quadrotor, hovering at the origin."""
        return cls()


@dataclass
class TickInput(_Words):
    """What a tick is given; without arguments level and still at a millisecond's step. Rates in rad/s, the attitude a quaternion w x y z, tracking_error in metres, the
    wanted heading (yaw) in rad, dt in s, the planner's rate command, and the fraction of the last torque that was delivered."""

    gyro: tuple = _ZERO
    attitude: tuple = (1.0, 0.0, 0.0, 0.0)
    tracking_error: float = 0.0
    yaw: float = 0.0
    yaw_rate: float = 0.0
    dt: float = 0.001
    planner: tuple = _ZERO
    delivered: tuple = (1.0, 1.0, 1.0)
    _kinds = ((float, 3), (float, 4), float, float, float, float, (float, 3), (float, 3))


@dataclass
class Answer(_Words):
    """What a tick answers."""

    torque: tuple
    command: tuple
    pilot: Pilot
    time: float
    psi: float
    margin: float
    _kinds, _refusal = ((float, 3), (float, 3), Pilot, float, float, float), 3


@dataclass
class Sample(_Words):
    """Where a route is at a time: the leg flown, counted from 0; north, east, down, in metres and seconds. The distance between the position and the aircraft's is the
    tracking_error that a tick is given."""

    leg: int
    position: tuple
    velocity: tuple
    acceleration: tuple
    jerk: tuple
    _kinds, _refusal = (int,) + ((float, 3),) * 4, 3


@dataclass
class Record(_Words):
    """A record of a log."""

    input: TickInput
    answer: Answer
    _kinds, _refusal = (TickInput, Answer), 14


@dataclass
class Stick(_Words):
    """What a stick's filter is set up with: how fast the value follows, rad/s, and the most that it and its rate are in size."""

    omega_n: float
    max_mag: float
    max_rate: float
    _kinds = (float,) * 3


@dataclass
class DeskSetUp(_Words):
    """A desk's set-up, stick by stick."""

    heading: Stick
    turn: Stick
    zoom: Stick
    _kinds, _refusal = (Stick,) * 3, 16


@dataclass
class Sticks(_Words):
    """Where the sticks stand: heading, rad; turn, rad/s; zoom. Heading and turn are independent: a heading that moves while turn is 0 is turning that nobody
    commanded, and the margin counts it as error."""

    heading: float = 0.0
    turn: float = 0.0
    zoom: float = 0.0
    _kinds, _refusal = (float,) * 3, 16


# ---- the library


def _find(name):
    if sys.byteorder != "little":
        raise OSError("there is no library of Fosavalo for a machine whose words begin with the highest byte")
    given, here = os.environ.get("FOSAVALO_LIB_DIR"), os.path.dirname(os.path.abspath(__file__))
    folders = [given] if given else [here, os.path.join(here, "..", "lib", f"{platform.machine()}-linux", "shared"), ""]
    tried = [os.path.join(folder, f"lib{name}.so") for folder in folders]
    for path in tried:
        if os.path.dirname(path) and not os.path.exists(path):
            continue
        try:
            return ctypes.CDLL(path)
        except OSError as error:
            if os.path.dirname(path):
                raise OSError(f"{path} cannot be loaded: {error}; set FOSAVALO_LIB_DIR to the folder of one for {platform.machine()}") from None
    raise OSError(f"lib{name}.so is not there, nor where the system has libraries: {', '.join(tried[: 1 if given else 2])}; set FOSAVALO_LIB_DIR to its folder")


def _lent(data):
    """A buffer's address and length, with what keeps it there. What may be written is lent as it is."""
    if isinstance(data, bytes):
        return data, len(data)
    return (ctypes.byref(ctypes.c_char.from_buffer(data)) if data else None), len(data)


class _Calls:
    """The C calls as they are, on bytes of any length and content; what is written is a bytearray. Each gives its number."""

    def __init__(self, name, table):
        library = _find(name)
        try:
            number = getattr(library, f"{name}_version")
        except AttributeError:
            raise Refusal(None, f"lib{name}.so has no version, this module is of {VERSION}: take both of one release") from None
        number.restype, number.argtypes = ctypes.c_uint32, []
        own = number()
        version = f"{own >> 16}.{own >> 8 & 255}.{own & 255}"
        if version != VERSION:
            raise Refusal(None, f"lib{name}.so is of version {version}, this module is of {VERSION}: take both of one release")
        for call, parameters in table.items():
            setattr(self, call, self._bound(getattr(library, f"{name}_{call}"), [(parameter.split() + [""])[:2] for parameter in parameters]))

    @staticmethod
    def _bound(function, parameters):
        types = {"f32": [ctypes.c_float], "u32": [ctypes.c_uint32], "u64": [ctypes.c_uint64]}
        function.argtypes = [each for _, kind in parameters for each in types.get(kind, [ctypes.c_void_p, ctypes.c_uint64])]
        function.restype = ctypes.c_float if parameters == [["x", "f32"]] else ctypes.c_uint32
        names = [name for name, _ in parameters]

        def call(*given):
            if len(given) != len(names):
                raise TypeError(f"{function.__name__} takes {', '.join(names)}")
            right = []
            for (name, kind), value in zip(parameters, given):
                if kind == "f32":
                    right.append(_float(value, name))
                elif kind in ("u32", "u64"):
                    right.append(_whole(value, name, int(kind[1:])))
                elif isinstance(value, bytearray):
                    right.append(value)
                elif kind == "mut":
                    raise _wrong(name, "a bytearray", value)
                else:
                    right.append(_bytes(value, name))
            # nothing is lent before all is right: an error would keep the loan, and a bytearray that is lent cannot grow
            flat = []
            for (_, kind), value in zip(parameters, right):
                flat.extend(_lent(value) if kind in ("mut", "") else [value])
            return function(*flat)

        return call


_TABLES = {
    "fosavalo": {
        "version": [],
        "sinf": ["x f32"],
        "cosf": ["x f32"],
        "setup": ["image mut", "input"],
        "exchange": ["image mut", "segment"],
        "tick": ["image mut", "input", "answer mut"],
        "route_tick": ["image mut", "input", "route", "answer mut"],
        "route_sample": ["route", "time f32", "sample mut"],
        "tick_refusal": ["image", "input_len u64", "answer_len u64"],
        "log_append": ["buffer mut", "log_len u64", "input", "answer"],
        "log_count": ["log", "count mut"],
        "log_record": ["log", "place u64", "record mut"],
        "log_check": ["log", "profile u32", "enter f32", "exit f32", "verdict mut"],
        "flags": ["margins", "enter f32", "exit f32", "flags mut"],
        "pattern_expand": ["pattern", "route mut", "written mut"],
    },
    "fosavalo_desk": {
        "version": [],
        "setup": ["desk mut", "input"],
        "centre": ["desk mut"],
        "tick": ["desk mut", "sticks", "image mut", "input mut", "answer mut"],
        "route_tick": ["desk mut", "sticks", "image mut", "input mut", "route", "answer mut"],
    },
}
_loaded = {}


def calls(name="fosavalo"):
    """The C calls of the core, or of "fosavalo_desk", on bytes; the library is loaded at the first."""
    if name not in _loaded:
        _loaded[name] = _Calls(name, _TABLES[name])
    return _loaded[name]


_ONE, _HALF, _TINY = [1.0], [2.0**-53], [5e-324]


def check_floats():
    """Refused where this thread does not round to nearest or does not keep subnormal numbers, as after loading a library that was linked with -ffast-math. Set-up, ticks
    and what looks at a flight ask it."""
    one, half, tiny = _ONE[0], _HALF[0], _TINY[0]
    if one + half != one or one + 3 * half <= one + 2 * half or tiny + tiny == 0.0 or tiny == 0.0:
        raise Refusal(None, "the floating-point environment of this thread does not round to nearest, or does not keep subnormal numbers")


def _filled(length, call):
    """What a call writes into a buffer of this length."""
    data = bytearray(length)
    Refusal.check(call(data))
    return bytes(data)


def _word(data, at):
    return int.from_bytes(data[4 * at : 4 * at + 4], "little")


def _number(data, at):
    return ctypes.c_float.from_buffer_copy(data, 4 * at).value


def sinf(x):
    """The sine of x, in radians: within 2^-23 of the exact value up to 8192 in size, 0.0 beyond it and for what is no number."""
    return calls().sinf(x)


def cosf(x):
    """The cosine, alike."""
    return calls().cosf(x)


def slow_flags(margins, enter, exit):
    """Who flies at each of these margins, found by looking back from each; the thresholds are mended as at set-up."""
    check_floats()
    words = _bytes(margins) if isinstance(margins, (bytes, bytearray)) else b"".join(_put(float, margin, f"margins[{k}]") for k, margin in enumerate(margins))
    return [Pilot(flag) for flag in _filled(len(words) // 4, lambda flags: calls().flags(words, enter, exit, flags))]


class _Held:
    """Bytes that are kept, and given out as copies."""

    _length, _refusal = 0, 0

    def __init__(self, data):
        self._data = bytearray(_bytes(data))
        if len(self._data) != self._length:
            raise Refusal(self._refusal)

    @classmethod
    def from_bytes(cls, data):
        """Refused where the length is another."""
        return cls(data)

    def as_bytes(self):
        return bytes(self._data)

    def __eq__(self, other):
        return type(self) is type(other) and self._data == other._data

    __hash__ = None


class Image(_Held):
    """The state that goes from tick to tick: 396 bytes that may be copied, stored and sent."""

    _length, _refusal = IMAGE_BYTES, 1

    @classmethod
    def set_up(cls, set_up):
        check_floats()
        words = _given(SetUp, set_up, "set_up")
        return cls(_filled(IMAGE_BYTES, lambda image: calls().setup(image, words)))

    def tick(self, input):
        """One tick."""
        check_floats()
        words = _given(TickInput, input, "input")
        return Answer.from_bytes(_filled(ANSWER_BYTES, lambda answer: calls().tick(self._data, words, answer)))

    def route_tick(self, input, route):
        """One tick toward a route in place of the image's segment."""
        check_floats()
        words, legs = _given(TickInput, input, "input"), _route_bytes(route)
        return Answer.from_bytes(_filled(ANSWER_BYTES, lambda answer: calls().route_tick(self._data, words, legs, answer)))

    def exchange(self, segment):
        """Another segment in flight: the time starts again, who flies goes on."""
        check_floats()
        Refusal.check(calls().exchange(self._data, _given(Leg, segment, "segment")))

    def check(self):
        """Refused where a tick would be, for the image."""
        Refusal.check(calls().tick_refusal(self._data, TICK_BYTES, ANSWER_BYTES))

    @property
    def enter(self):
        return _number(self._data, 13)

    @property
    def exit(self):
        return _number(self._data, 14)

    @property
    def pilot(self):
        return Pilot(min(_word(self._data, 15), 1))

    @property
    def time(self):
        return _number(self._data, 16)

    @property
    def profile(self):
        """None where a word stands there that is no profile's."""
        word = _word(self._data, 95)
        return Profile(word) if word < 2 else None

    @property
    def peak_abs_jerk(self):
        return tuple(_number(self._data, at) for at in (96, 97, 98))

    def __repr__(self):
        return f"Image(enter={self.enter}, exit={self.exit}, pilot={self.pilot!s}, time={self.time})"


def _route(legs):
    """Legs with the two words behind them."""
    return legs + (len(legs) // LEG_BYTES).to_bytes(4, "little") + len(legs).to_bytes(4, "little")


def _route_bytes(route):
    if isinstance(route, Route):
        return bytes(route._data)
    if isinstance(route, (bytes, bytearray, memoryview)):
        return _bytes(route)
    raise _wrong("route", "a Route", route)


def _sample(route, time):
    check_floats()
    return Sample.from_bytes(_filled(SAMPLE_BYTES, lambda sample: calls().route_sample(route, time, sample)))


class Route:
    """1 to 32 legs, checked when it is made: each starts where the one before it ends."""

    def __init__(self, legs):
        self._keep(_route(b"".join(_put(Leg, leg, f"legs[{k}]") for k, leg in enumerate(legs))))

    @classmethod
    def from_bytes(cls, data):
        route = cls.__new__(cls)
        route._keep(_bytes(data))
        return route

    def _keep(self, data):
        check_floats()
        ask = lambda route: calls().route_sample(route, 0.0, bytearray(SAMPLE_BYTES))
        number = ask(data)
        if number == 7:
            # which leg: each two are asked about in turn
            for leg in range(1, len(data) // LEG_BYTES):
                if ask(_route(data[LEG_BYTES * (leg - 1) : LEG_BYTES * (leg + 1)])) == 7:
                    raise Refusal(7, leg=leg)
        Refusal.check(number)
        self._data = data

    def __len__(self):
        return len(self._data) // LEG_BYTES

    def legs(self):
        return list(_take((Leg, len(self)), self._data, 0))

    def sample(self, time):
        """Where the route is at a time on the governor's clock, Image.time."""
        return _sample(self._data, time)

    def as_bytes(self):
        return self._data


class Pattern:
    """Legs and repeats, which may stand inside each other four deep: `Pattern().leg(a).repeat(3, Pattern().leg(b).leg(c))`."""

    def __init__(self):
        self._data = b""

    @classmethod
    def from_bytes(cls, data):
        return cls()._add(_bytes(data))

    def leg(self, leg):
        return self._add(b"\0" + _put(Leg, leg, "leg"))

    def repeat(self, count, inner):
        if not isinstance(inner, Pattern):
            raise _wrong("inner", "a Pattern", inner)
        if _whole(count, "count", 32) > 255 or len(inner._data) > 65535:
            raise Refusal(12)
        return self._add(bytes([1, count]) + len(inner._data).to_bytes(2, "little") + inner._data)

    def _add(self, items):
        # items behind a pattern make one if they are one by themselves; that is judged before the room for a route, of which there is none
        if calls().pattern_expand(items, bytearray(), bytearray(4)) == 12:
            raise Refusal(12)
        self._data += items
        return self

    def expand(self):
        """Its legs in flown order, as a Route."""
        check_floats()
        route, written = bytearray(MOST_LEGS * LEG_BYTES + ROUTE_TRAILER_BYTES), bytearray(4)
        Refusal.check(calls().pattern_expand(self._data, route, written))
        return Route.from_bytes(route[: _word(written, 0)])

    def as_bytes(self):
        return self._data


# a record's words: each field's place, and how many it takes
_COLUMNS, _at = {}, 0
for _own in (TickInput, Answer):
    for _kind, _field in zip(_own._kinds, fields(_own)):
        _COLUMNS[_field.name] = (_at, _size(_kind) // 4)
        _at += _size(_kind) // 4


class Log:
    """A flight log: ticks' inputs and answers, at most 65,535 of them. Its bytes are a file."""

    def __init__(self):
        self._data = bytearray(EMPTY_LOG)

    @classmethod
    def from_bytes(cls, data):
        """Refused where these are no log."""
        log = cls()
        log._data = bytearray(_bytes(data))
        _filled(4, lambda count: calls().log_count(log._data, count))
        return log

    def append(self, input, answer):
        """A tick's, values or their bytes."""
        words, end = (_given(TickInput, input, "input"), _given(Answer, answer, "answer")), len(self._data)
        self._data.extend(bytes(RECORD_BYTES))
        number = calls().log_append(self._data, end, *words)
        if number != 0:
            del self._data[end:]
        Refusal.check(number)

    def __len__(self):
        return _word(_filled(4, lambda count: calls().log_count(self._data, count)), 0)

    def __getitem__(self, place):
        """The record at a place, counted from 0; from the end where it is below 0."""
        if isinstance(place, slice):
            return [self[each] for each in range(*place.indices(len(self)))]
        at = place + len(self) if place < 0 else place
        record = bytearray(RECORD_BYTES)
        number = 13 if at < 0 else calls().log_record(self._data, at, record)
        if number == 13:
            raise IndexError(f"{Refusal.words(13)}: {place}")
        Refusal.check(number)
        return Record.from_bytes(record)

    def column(self, name, part=0):
        """A field of every record, input's or answer's by its name, as an array of 32-bit floats; of one with three or four numbers the part asked for. `pilot` is an
        array of flags. `numpy.frombuffer` takes it as it is."""
        if name not in _COLUMNS:
            raise KeyError(f"a record has no {name}; it has {', '.join(_COLUMNS)}")
        at, width = _COLUMNS[name]
        if not 0 <= part < width:
            raise IndexError(f"{name} has parts 0 to {width - 1}, not {part}")
        kind = "I" if name == "pilot" else "f"
        with memoryview(self._data) as view, view[: len(self) * RECORD_BYTES] as records, records.cast(kind) as words:
            return array(kind, words[at + part :: RECORD_BYTES // 4])

    def check(self, profile, enter, exit):
        """None where every record is one that the shield's rule allows; else the place of the first that is not, counted from 0. With the profile and the thresholds of the
        flight, which a log does not tell."""
        check_floats()
        word = int.from_bytes(_put(Profile, profile, "profile"), "little")
        verdict = _word(_filled(4, lambda verdict: calls().log_check(self._data, word, enter, exit, verdict)), 0)
        return None if verdict == LOG_RIGHT else verdict

    def as_bytes(self):
        return bytes(self._data)


class LogSeries:
    """A flight of any length, kept tick by tick: logs that go on, in their order. All but the last have 65,534 records."""

    def __init__(self):
        self._logs = [Log()]

    def append(self, input, answer):
        """A tick's, values or their bytes."""
        full = len(self._logs[-1]) == MOST_IN_SERIES
        log = Log() if full else self._logs[-1]
        log.append(input, answer)
        if full:
            self._logs.append(log)

    def logs(self):
        """The logs, in their order; the first is there from the start."""
        return list(self._logs)

    def __len__(self):
        """How many records, in all logs."""
        return sum(map(len, self._logs))

    def __iter__(self):
        """The records, in the order in which they were appended."""
        return (record for log in self._logs for record in log)

    def column(self, name, part=0):
        """As a log's, over all of them."""
        first, *more = (log.column(name, part) for log in self._logs)
        for column in more:
            first.extend(column)
        return first

    def check(self, profile, enter, exit):
        """None where every record is right; else the place of the first that is not, counted from 0 over all logs: SeriesCheck."""
        check = SeriesCheck(profile, enter, exit)
        for log in self._logs:
            check.log(log)
        return check.verdict


# a record that releases a fresh shield: the greatest margin of all. Where exit is as great it releases nothing; but then no margin does, and nobody asks for it
_RELEASE = bytes(RECORD_BYTES - 4) + bytes.fromhex("ffff7f7f")


class SeriesCheck:
    """Logs that go on, of whatever box, checked one after another as the one flight that they are; the first begins with the flight. At a seam the shield stands as
    the last flag of the log before it says, which has been found right. So the whole gets the verdict that one log of all its records would get."""

    def __init__(self, profile, enter, exit):
        _put(Profile, profile, "profile")
        self._rule = profile, _float(enter, "enter"), _float(exit, "exit")
        self._pilot, self._records, self._wrong = Pilot.FALLBACK, 0, None

    def log(self, log):
        """The next log, or its bytes; what is then said of all of them. Once a record is wrong, nothing is looked at any more. A log that is refused does not count."""
        log = log if isinstance(log, Log) else Log.from_bytes(log)
        data, at = log.as_bytes()[: len(log) * RECORD_BYTES], 0
        pilot, records, wrong = self._pilot, self._records, self._wrong
        while at < len(data) and wrong is None:
            carried = _RELEASE if pilot is Pilot.PLANNER else b""
            piece = data[at : at + MOST_RECORDS * RECORD_BYTES - len(carried)]
            counted = (len(carried) + len(piece)) // RECORD_BYTES
            words = (counted, counted * RECORD_BYTES, RECORD_BYTES)
            checked = Log.from_bytes(carried + piece + b"".join(word.to_bytes(4, "little") for word in words))
            place = checked.check(*self._rule)
            if place is None:
                pilot = checked[-1].answer.pilot
            else:
                wrong = records + max(place - (1 if carried else 0), 0)
            at += len(piece)
            records += len(piece) // RECORD_BYTES
        self._pilot, self._records, self._wrong = pilot, records, wrong
        return wrong

    @property
    def verdict(self):
        """What is said of the logs so far: None, or the place of the first record that is not right, counted from 0 over all of them."""
        return self._wrong

    @property
    def pilot(self):
        """Who flies at the last right record; the fallback before the first."""
        return self._pilot


class Desk(_Held):
    """An operator's desk: three sticks, each through a command filter, above the core. 60 bytes; there is no broken one."""

    _length, _refusal = DESK_BYTES, 15

    @classmethod
    def set_up(cls, set_up):
        check_floats()
        words = _given(DeskSetUp, set_up, "set_up")
        return cls(_filled(DESK_BYTES, lambda desk: calls("fosavalo_desk").setup(desk, words)))

    def centre(self):
        """The centre button: values and rates become 0."""
        Refusal.check(calls("fosavalo_desk").centre(self._data))

    def tick(self, sticks, image, input):
        """One tick; the heading and its rate are written into the input, a TickInput or a bytearray."""
        return self._fly(calls("fosavalo_desk").tick, sticks, image, input)

    def route_tick(self, sticks, image, input, route):
        """The same toward a route."""
        return self._fly(calls("fosavalo_desk").route_tick, sticks, image, input, _route_bytes(route))

    def _fly(self, call, sticks, image, input, *route):
        check_floats()
        if not isinstance(image, Image):
            raise _wrong("image", "an Image", image)
        flown, answer = bytearray(_given(TickInput, input, "input")), bytearray(ANSWER_BYTES)
        Refusal.check(call(self._data, _given(Sticks, sticks, "sticks"), image._data, flown, *route, answer))
        if isinstance(input, TickInput):
            input.yaw, input.yaw_rate = _number(flown, 8), _number(flown, 9)
        elif isinstance(input, bytearray):
            input[:] = flown
        return Answer.from_bytes(answer)

    @property
    def heading(self):
        return _number(self._data, 3)

    @property
    def turn(self):
        return _number(self._data, 8)

    @property
    def zoom_rate(self):
        return _number(self._data, 13)
