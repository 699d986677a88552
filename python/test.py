"""python3 python/test.py FOLDER [--damage]: the module on the shared libraries in FOLDER. A line for each group of checks, and last `N passed, 0 failed`. What is
expected comes from the headers, the Rust crate's examples and the oracle's stored answers. With --damage one bit of one stored answer is changed, and it has to fail."""

import math
import os
import random
import re
import subprocess
import sys
import tempfile
from dataclasses import fields, replace

FOLDER = next((word for word in sys.argv[1:] if not word.startswith("--")), None)
if FOLDER is None:
    sys.exit(__doc__)
os.environ["FOSAVALO_LIB_DIR"] = FOLDER
HERE = os.path.dirname(os.path.abspath(__file__))
TOP = os.path.dirname(HERE)
sys.path.insert(0, HERE)
sys.dont_write_bytecode = True
import fosavalo
from fosavalo import Answer, Desk, DeskSetUp, Image, Leg, Log, LogSeries, MOST_IN_SERIES, MOST_RECORDS, Pattern, Pilot, Profile, Record, Refusal, Route, Sample
from fosavalo import SeriesCheck, SetUp, Stick, Sticks, TickInput

counts = {"passed": 0, "failed": 0}
NAN = math.nan


def group(check):
    try:
        said = check()
        counts["passed"] += 1
        print(f"ok      {check.__doc__}{f': {said}' if said else ''}")
    except Exception as error:
        counts["failed"] += 1
        print(f"FAILED  {check.__doc__}: {type(error).__name__}: {' '.join(str(error).split())[:300]}")


def same(is_, wanted, what=""):
    if is_ != wanted:
        raise AssertionError(f"{what} {is_!r} is not {wanted!r}")


def raised(kind, call, *words):
    try:
        call()
    except kind as error:
        for word in words:
            assert word in str(error), f"{word!r} is not in {error}"
        return error
    raise AssertionError(f"no {kind.__name__} with {words}")


def refused(number, call):
    same(raised(Refusal, call).number, number)


def text(path):
    with open(os.path.join(TOP, path), encoding="utf-8") as file:
        return file.read()


def in_c(program):
    """What a C program with the headers prints."""
    with tempfile.TemporaryDirectory() as room:
        source, built = os.path.join(room, "program.c"), os.path.join(room, "program")
        with open(source, "w") as file:
            file.write('#include "fosavalo_desk.h"\n#include <stdio.h>\n' + program)
        subprocess.run(["gcc", "-I", os.path.join(TOP, "include"), source, f"-L{FOLDER}", "-lfosavalo", "-lfosavalo_desk", "-o", built], check=True)
        # by its version's name, as the loader asks for it
        for name in os.listdir(FOLDER):
            if name.endswith(".so"):
                os.symlink(os.path.abspath(os.path.join(FOLDER, name)), os.path.join(room, f"{name}.{fosavalo.VERSION.rpartition('.')[0]}"))
        return subprocess.run([built], check=True, capture_output=True, text=True, env={"LD_LIBRARY_PATH": room}).stdout.splitlines()


# ---- the stored answers, crates/replay/stdin; docs/ORACLE.md has their form


DESK = 512


def sections(data):
    at = 0

    def word():
        nonlocal at
        at += 4
        return int.from_bytes(data[at - 4 : at], "little")

    def take(count):
        nonlocal at
        at += count
        return data[at - count : at]

    assert word() == 0x57534E41, "the list begins with ANSW"
    read, (count, answers) = [], (word(), word())
    for _ in range(count):
        number, given, answered, rows = word(), word(), word(), word()
        take(48)
        kept = []
        for _ in range(rows):
            if number < 500:
                kept.append(take(4 * (given + answered)))
                continue
            # a desk's rows have six buffers, of which four may change; the others four, of which two may
            desk, buffers = number >= DESK, []
            for _ in range(6 if desk else 4):
                stored, lent = word(), word()
                buffers.append((take(4 * stored), lent))
            place = 0 if desk else word()
            wanted, changes = word(), (0, 2, 3, 5) if desk else (0, 2)
            left = [take(len(stored)) if k in changes else stored for k, (stored, _) in enumerate(buffers)]
            kept.append((buffers, place, wanted, left))
        read.append((number, kept))
    assert at == len(data) and sum(len(rows) for _, rows in read) == answers, "the list is of this form"
    return read


def floats(data):
    return [fosavalo._number(data, at) for at in range(len(data) // 4)]


def bare(number, row):
    """Whether the call on bytes gives the stored number and bytes."""
    buffers, at, wanted, left = row
    lent = [bytearray(stored[:length]) for stored, length in buffers]
    a, b, c, d, *more = lent
    core, desk = fosavalo.calls(), fosavalo.calls("fosavalo_desk")
    said = {
        500: lambda: core.setup(a, b),
        501: lambda: core.tick(a, b, c),
        502: lambda: core.route_tick(a, b, d, c),
        503: lambda: core.log_append(a, at, b, d),
        504: lambda: core.log_count(b, c),
        505: lambda: core.log_record(b, at, c),
        506: lambda: core.exchange(a, b),
        507: lambda: core.flags(b, *floats(d)[:2], c),
        508: lambda: core.route_sample(d, floats(b)[0], c),
        509: lambda: core.tick_refusal(b, fosavalo._word(d, 0), fosavalo._word(d, 1)),
        510: lambda: core.log_check(d, fosavalo._word(b, 0), *floats(b)[1:3], c),
        511: lambda: core.pattern_expand(d, a, c),
        512: lambda: desk.tick(a, b, c, d, more[1]),
        513: lambda: desk.route_tick(a, b, c, d, *more),
        514: lambda: desk.setup(a, b),
        515: lambda: desk.centre(a),
    }[number]()
    same((said, [bytes(own) for own in lent]), (wanted, [after[: len(own)] for after, own in zip(left, lent)]), "bare")


def number_of(call):
    try:
        return 0, call()
    except Refusal as refusal:
        return refusal.number, None


def typed(number, row):
    """Whether the typed calls give the stored answer; False where they cannot lend such buffers."""
    buffers, at, wanted, left = row
    lent = [bytes(stored[:length]) for stored, length in buffers]
    left = [after[: len(own)] for after, own in zip(left, lent)]
    if number >= DESK:
        return typed_desk(number, wanted, lent, left)
    (a, b, c, d), (after_a, _, after_c, _) = lent, left

    def on_image(call):
        said, image = number_of(lambda: Image.from_bytes(a))
        if said == 0:
            said, gave = number_of(lambda: call(image))
            same(image.as_bytes(), after_a, "the image")
            if said == 0 and gave is not None:
                # NaNs are NaNs: the core writes but one
                same(gave.to_bytes(), after_c, "the answer")
        same(said, wanted)

    if number == 500:
        if len(a) != fosavalo.IMAGE_BYTES:
            return False
        said, image = number_of(lambda: Image.set_up(b))
        same((said, image and image.as_bytes()), (wanted, None if wanted else after_a))
    elif number in (501, 502):
        if len(c) != fosavalo.ANSWER_BYTES:
            return False
        if number == 501:
            on_image(lambda image: image.tick(b))
        else:
            if wanted in (0, 5, 6, 7):
                same(number_of(lambda: Route.from_bytes(d))[0], wanted)
            on_image(lambda image: image.route_tick(b, d))
    elif number == 503:
        if wanted == 9 or at > len(a):
            return False
        said, log = number_of(lambda: Log.from_bytes(a[:at]))
        if said:
            return wanted == said
        said, _ = number_of(lambda: log.append(b, d))
        same((said, log.as_bytes()), (wanted, a[:at] if wanted else after_a[: at + fosavalo.RECORD_BYTES]))
    elif number == 504:
        if len(c) != 4:
            return False
        said, log = number_of(lambda: Log.from_bytes(b))
        same((said, None if log is None else len(log).to_bytes(4, "little")), (wanted, None if wanted else after_c))
    elif number == 505:
        said, log = number_of(lambda: Log.from_bytes(b))
        if len(c) != fosavalo.RECORD_BYTES or said:
            return wanted == said
        if wanted == 13:
            raised(IndexError, lambda: log[at], "the log has no record at that place")
        else:
            same([log.column(name, part)[at] for name, part in (("pilot", 0),)], [fosavalo._word(after_c, 23)])
            same(repr(log[at]), repr(Record.from_bytes(after_c)))
    elif number == 506:
        on_image(lambda image: image.exchange(b))
    elif number == 508:
        if len(c) != fosavalo.SAMPLE_BYTES:
            return False
        said, sample = number_of(lambda: Route.from_bytes(d).sample(floats(b)[0]))
        same((said, sample and sample.to_bytes()), (wanted, None if wanted else after_c))
    elif number == 509:
        if [fosavalo._word(d, at) for at in (0, 1)] != [fosavalo.TICK_BYTES, fosavalo.ANSWER_BYTES]:
            return False
        same(number_of(lambda: Image.from_bytes(b).check())[0], wanted)
    elif number == 510:
        if len(c) != 4 or fosavalo._word(b, 0) > 1:
            return False
        right, (enter, exit) = int.from_bytes(after_c, "little"), floats(b)[1:3]
        said, verdict = number_of(lambda: Log.from_bytes(d).check(fosavalo.Profile(fosavalo._word(b, 0)), enter, exit))
        same((said, verdict), (wanted, None if wanted or right == fosavalo.LOG_RIGHT else right))
    elif number == 511:
        # the room is the module's own
        if len(c) != 4 or wanted == 9:
            return False
        said, route = number_of(lambda: Pattern.from_bytes(d).expand())
        same((said, route and route.as_bytes()), (wanted, None if wanted else after_a[: int.from_bytes(after_c, "little")]))
    else:
        if len(c) != len(b) // 4:
            return False
        said, flags = number_of(lambda: fosavalo.slow_flags(b, *floats(d)[:2]))
        same((said, flags and bytes(flags)), (wanted, None if wanted else (after_c or [])))
    return True


def typed_desk(number, wanted, lent, left):
    desk, sticks, image, data, route, answer = lent
    if number in (512, 513):
        if len(answer) != fosavalo.ANSWER_BYTES or len(data) != fosavalo.TICK_BYTES:
            return False
        data = bytearray(data)
        held = [number_of(lambda: Desk.from_bytes(desk)), number_of(lambda: Image.from_bytes(image))]
        said = next((said for said, _ in held if said), 0)
        if said:
            return wanted == said
        held = [own for _, own in held]
        fly = held[0].tick if number == 512 else lambda *given: held[0].route_tick(*given, route)
        said, gave = number_of(lambda: fly(sticks, held[1], data))
        same((said, gave and gave.to_bytes()), (wanted, None if wanted else left[5]))
        same([held[0].as_bytes(), held[1].as_bytes(), bytes(data)], [left[0], left[2], left[3]], "what the desk leaves")
    elif number == 514:
        if len(desk) != fosavalo.DESK_BYTES:
            return False
        said, made = number_of(lambda: Desk.set_up(sticks))
        same((said, made and made.as_bytes()), (wanted, None if wanted else left[0]))
    else:
        said, own = number_of(lambda: Desk.from_bytes(desk))
        if said == 0:
            said, _ = number_of(own.centre)
            same(own.as_bytes(), left[0])
        same(said, wanted)
    return True


with open(os.path.join(TOP, "crates/replay/stdin"), "rb") as stored_file:
    STORED = bytearray(stored_file.read())
READ = sections(bytes(STORED))
if "--damage" in sys.argv:
    # the lowest bit of the first byte of the first tick's image after the call
    for k, (section_number, section_rows) in enumerate(READ):
        if section_number == 501:
            row = section_rows[0]
            section_rows[0] = row[:3] + ([bytes([row[3][0][0] ^ 1]) + row[3][0][1:], *row[3][1:]],)

for section_number, section_rows in READ:
    if section_number >= 500:

        def stored(number=section_number, rows=section_rows):
            for row in rows:
                bare(number, row)
            return f"{len(rows)} calls on bytes, {sum(typed(number, row) for row in rows)} typed"

        stored.__doc__ = f"stored answers, {section_number}"
        group(stored)


# ---- the headers


def constants():
    """the header's numbers"""
    header = text("include/fosavalo.h") + text("include/fosavalo_desk.h")
    found = re.findall(r"#define FOSAVALO_(\w+(?:_BYTES|_LEGS|_RECORDS|_MARGINS|_REPEAT)|LOG_RIGHT) (0x[0-9a-f]+|\d+)u?\b", header)
    for name, value in found:
        same(getattr(fosavalo, name), int(value, 0), name)
    version = ".".join(re.search(rf"#define FOSAVALO_VERSION_{part} (\d+)", header)[1] for part in ("MAJOR", "MINOR", "PATCH"))
    same(fosavalo.VERSION, version)
    assert len(found) == 17, found
    return len(found)


def places():
    """each field stands where the header has its word"""
    header, checked = text("include/fosavalo.h") + text("include/fosavalo_desk.h"), 0
    renamed = {"flag": "pilot"}
    for prefix, value in (("TICK", TickInput()), ("LEG", Leg()), ("ANSWER", Answer((0,) * 3, (0,) * 3, 0, 0, 0, 0)), ("SAMPLE", Sample(0, *((0,) * 3,) * 4))):
        names = {own.name for own in fields(value)}
        for name, place in re.findall(rf"#define FOSAVALO_{prefix}_(\w+) (\d+)\b", header):
            name = renamed.get(name.lower(), name.lower())
            if name == "bytes":
                continue
            before = getattr(value, name)
            changed = replace(value, **{name: (before[0] + 1, *before[1:]) if isinstance(before, tuple) else before + 1 if name != "pilot" else Pilot.FALLBACK})
            differ = [k for k, (x, y) in enumerate(zip(value.to_bytes(), changed.to_bytes())) if x != y]
            same({k // 4 for k in differ}, {int(place)}, f"{prefix}_{name}")
            names.discard(name)
            checked += 1
        same(names, set(), f"{prefix}, without a place")
    return checked


def words():
    """the defaults and the meanings are the header's"""
    said = in_c(
        "static void show(const uint8_t *bytes, unsigned n) { for (unsigned k = 0; k < n; k++) printf(\"%02x\", bytes[k]); puts(\"\"); }\n"
        "int main(void) { uint8_t a[FOSAVALO_SETUP_BYTES], b[FOSAVALO_TICK_BYTES]; fosavalo_setup_default(a); show(a, sizeof a); fosavalo_tick_default(b); show(b, sizeof b);\n"
        "for (unsigned k = 0; k < 40; k++) puts(fosavalo_desk_meaning(k)); return 0; }\n"
    )
    same(SetUp.falcon_quad().to_bytes().hex(), said[0])
    same(TickInput().to_bytes().hex(), said[1])
    same([Refusal.words(number) for number in range(40)], said[2:])


# ---- the crate's examples


def ticks():
    """a set-up, ticks, a log and its check"""
    image = Image.set_up(SetUp.falcon_quad())
    answer = image.tick(TickInput())
    same((answer.pilot, answer.margin), (Pilot.PLANNER, 1.75))
    image = Image.set_up(replace(SetUp.falcon_quad(), enter=NAN, exit=-1.0))
    same((round(image.enter, 6), round(image.exit, 6), image.pilot, image.profile), (0.1, 0.2, Pilot.FALLBACK, Profile.WHOLE))
    log, set_up = Log(), SetUp.falcon_quad()
    image = Image.set_up(set_up)
    for roll in (0.5, NAN, -0.0):
        input = TickInput(planner=(roll, 0, 0))
        log.append(input, image.tick(input))
    same((len(log), log.check(Profile.WHOLE, 0.5, 1.0)), (3, None))
    log.append(TickInput(), replace(image.tick(TickInput()), pilot=Pilot.FALLBACK))
    same(log.check(Profile.WHOLE, 0.5, 1.0), 3)
    same(Log.from_bytes(log.as_bytes()).as_bytes(), log.as_bytes())
    same([record.answer.margin for record in log], list(log.column("margin")))
    same((list(log.column("pilot")), log[-1].answer.pilot), ([0, 0, 0, 1], Pilot.FALLBACK))
    same([list(log.column("attitude", part)) for part in range(4)], [[1.0] * 4, [0.0] * 4, [0.0] * 4, [0.0] * 4])
    same([list(log.column(name, part)) for name, part in (("dt", 0), ("delivered", 2))], [[log[0].input.dt] * 4, [1.0] * 4])
    same(log[2:], [log[2], log[3]])
    image.exchange(Leg(pf=(3, 0, 0), t=4))
    same((image.time, image.pilot), (0.0, Pilot.PLANNER))
    assert image.peak_abs_jerk[0] > 0 and image.peak_abs_jerk[1:] == (0.0, 0.0)
    spun = Image.set_up(replace(set_up, profile=Profile.LOST_ROTOR)).tick(TickInput(gyro=(0, 0, 20), yaw=NAN, planner=(0.5, 0, 2)))
    same((spun.pilot, spun.command, spun.torque[2]), (Pilot.PLANNER, (0.5, 0.0, 0.0), 0.0))


def record_of(flag, margin, command=0):
    """A record's bytes: its flag, its margin and the word of its command's first part; all else is 0."""
    margin = bytes(__import__("ctypes").c_float(margin))
    return bytes(80) + command.to_bytes(4, "little") + bytes(8) + flag.to_bytes(4, "little") + bytes(8) + margin


def log_of(records):
    """Of a list of records, or of their bytes one after another."""
    data = bytes(records) if isinstance(records, bytearray) else b"".join(records)
    return Log.from_bytes(data + b"".join(word.to_bytes(4, "little") for word in (len(data) // 108, len(data), 108)))


def pieces(logs, *rule):
    check = SeriesCheck(*rule)
    for log in logs:
        check.log(log)
    return check.verdict


def cut_anywhere():
    """logs that go on, cut anywhere, get the verdict of the whole"""
    chance, verdicts, carried = random.Random(88172645463325252), [0, 0], 0
    margins = (0.25, 0.5, 0.75, 1.0, 1.5, NAN, math.inf, -math.inf, -1.0, 3.4028234663852886e38, 0.1, 0.15, 0.3, 1e-45, 3e-45)
    thresholds = ((0.5, 1.0), (0.5, 3.4028234663852886e38), (NAN, 1.0), (0.5, 0.25), (1e-45, 3e-45), (3e38, 0.0))
    for turn in range(6000):
        enter, exit = chance.choice(thresholds)
        profile, image = chance.choice(tuple(Profile)), Image.set_up(replace(SetUp(), enter=enter, exit=exit))
        records, engaged = [], True
        for _ in range(chance.randrange(14)):
            margin = Answer((0,) * 3, (0,) * 3, 0, 0, 0, chance.choice(margins))
            margin = Answer.from_bytes(margin.to_bytes()).margin
            engaged = not (math.isfinite(margin) and margin > image.exit) if engaged else not math.isfinite(margin) or margin < image.enter
            spoiled = turn % 3 and chance.randrange(12) == 0
            command = chance.choice((1, 0x7FC00000)) if turn % 3 and chance.randrange(40) == 0 else 0
            records.append(record_of(chance.randrange(3) if spoiled else int(engaged), margin, command))
        whole = log_of(records).check(profile, enter, exit)
        cuts = sorted([chance.randrange(len(records) + 1) for _ in range(chance.randrange(5))] + [0, len(records)])
        logs = [log_of(records[cuts[k] : cuts[k + 1]]) for k in range(len(cuts) - 1)]
        same(pieces(logs, profile, enter, exit), whole, f"round {turn}, {cuts}")
        verdicts[whole is None] += 1
        carried += any(0 < cut < len(records) and fosavalo._word(records[cut - 1], 23) == 0 for cut in cuts)
    assert min(*verdicts, carried) > 600, (verdicts, carried)
    return f"{verdicts[1]} right, {verdicts[0]} wrong, {carried} cut where the planner flies"


def full_logs():
    """full logs of other boxes are one flight, to their last records"""
    kept = record_of(0, 0.75)
    records = bytearray(record_of(0, 1.5) + kept * (3 * MOST_RECORDS - 1))
    logs = lambda: [log_of(records[at : at + 108 * MOST_RECORDS]) for at in range(0, len(records), 108 * MOST_RECORDS)]
    same(pieces(logs(), Profile.WHOLE, 0.5, 1.0), None)
    for place in (0, 1, MOST_RECORDS - 1, MOST_RECORDS, 2 * MOST_RECORDS - 2, 2 * MOST_RECORDS - 1, 2 * MOST_RECORDS, 3 * MOST_RECORDS - 1):
        at = slice(108 * place, 108 * place + 108)
        before, records[at] = bytes(records[at]), record_of(1, 0.75, 0x7F800000)
        same(pieces(logs(), Profile.WHOLE, 0.5, 1.0), place)
        records[at] = before


def series():
    """a flight over several logs"""
    own = LogSeries()
    same((len(own), [log.as_bytes() for log in own.logs()], own.check(Profile.WHOLE, 0.5, 1.0)), (0, [Log().as_bytes()], None))
    core, held, answer, flown = fosavalo.calls(), bytearray(Image.set_up(SetUp()).as_bytes()), bytearray(fosavalo.ANSWER_BYTES), []
    # still for a while, then a roll with a margin in the band: the planner flies across the first seam. And then one below enter: the fallback across the second
    inputs = [TickInput(gyro=(roll, 0.0, 0.0)).to_bytes() for roll in (0.0, 1.75, 2.2)]
    for tick in range(2 * MOST_IN_SERIES + 4466):
        input = inputs[(tick > 1000) + (tick > 100000)]
        same(core.tick(held, input, answer), 0)
        own.append(input, bytes(answer))
        flown.append(input + answer)
    same([len(log) for log in own.logs()], [65534, 65534, 4466])
    same((len(own), b"".join(log.as_bytes()[:-12] for log in own.logs())), (len(flown), b"".join(flown)))
    same(own.check(Profile.WHOLE, 0.5, 1.0), None)
    column = own.column("margin")
    same((len(column), column[-1], column[MOST_IN_SERIES]), (len(flown), floats(flown[-1])[26], floats(flown[MOST_IN_SERIES])[26]))
    same([record.answer.time for record, _ in zip(own, range(3))], [floats(each)[24] for each in flown[:3]])
    # by itself, as if a flight began there, the second is wrong at once
    same([log.check(Profile.WHOLE, 0.5, 1.0) for log in own.logs()], [None, 0, None])


def seams():
    """a check of a series tells who flies and where it is wrong; what is refused does not count"""
    first, second = log_of([record_of(0, 1.5)]), log_of([record_of(0, 0.75), record_of(0, 0.25)])
    same(second.check(Profile.WHOLE, 0.5, 1.0), 0)
    check = SeriesCheck(Profile.WHOLE, 0.5, 1.0)
    same((check.verdict, check.pilot), (None, Pilot.FALLBACK))
    same((check.log(first), check.pilot), (None, Pilot.PLANNER))
    refused(8, lambda: check.log(bytes(12)))
    same((check.verdict, check.pilot), (None, Pilot.PLANNER))
    same((check.log(second.as_bytes()), check.verdict, check.log(first), check.pilot), (2, 2, 2, Pilot.PLANNER))
    own = LogSeries()
    for _ in range(MOST_IN_SERIES):
        own.append(bytes(68), bytes(40))
    before = [log.as_bytes() for log in own.logs()]
    refused(2, lambda: own.append(bytes(67), bytes(40)))
    refused(3, lambda: own.append(bytes(68), bytes(41)))
    same([log.as_bytes() for log in own.logs()], before)
    own.append(bytes(68), bytes(40))
    same([len(log) for log in own.logs()], [MOST_IN_SERIES, 1])
    raised(TypeError, lambda: SeriesCheck(2, 0.5, 1.0), "profile has to be a Profile, not 2")
    raised(TypeError, lambda: SeriesCheck(Profile.WHOLE, "low", 1.0), "enter has to be a number, not 'low'")
    raised(TypeError, lambda: check.log(12), "data has to be bytes, not 12")


def routes():
    """routes, samples, patterns, looking back"""
    rest = Leg()
    out = replace(rest, pf=(3.0, 0.0, 0.0), t=4.0)
    route = Route([rest, out])
    same((len(route), route.sample(0.5).leg, route.sample(3.0).leg, route.sample(3.0).position), (2, 0, 1, (1.5, 0.0, 0.0)))
    same((route.sample(NAN), out.sample(2.0).position), (route.sample(5.0), (1.5, 0.0, 0.0)))
    same((route.legs(), Route.from_bytes(route.as_bytes()).as_bytes()), ([rest, out], route.as_bytes()))
    error = raised(Refusal, lambda: Route([rest, out, rest]), "refused (7): leg 3 of the route does not start where leg 2 ends")
    same((error.number, error.leg), (7, 2))
    refused(5, lambda: Route([]))
    refused(5, lambda: Route([rest] * 33))
    refused(6, lambda: Route.from_bytes(b"\0" * 7))
    back = Leg(p0=(3.0, 0.0, 0.0), t=4.0)
    pattern = Pattern().leg(rest).repeat(3, Pattern().leg(out).leg(back))
    same(pattern.expand().legs(), [rest] + [out, back] * 3)
    same(Pattern.from_bytes(pattern.as_bytes()).as_bytes(), pattern.as_bytes())
    refused(12, lambda: Pattern().repeat(10, Pattern().leg(rest)))
    refused(12, lambda: Pattern().repeat(256, Pattern()))
    refused(5, lambda: Pattern().expand())
    flown = fosavalo.slow_flags([1.0, 1.5, 0.75, 0.25, 0.75], 0.5, 1.0)
    same([str(pilot) for pilot in flown], ["fallback", "planner", "planner", "fallback", "fallback"])
    image = Image.set_up(SetUp.falcon_quad())
    same(image.route_tick(TickInput(), route).pilot, Pilot.PLANNER)
    same((fosavalo.sinf(NAN), fosavalo.cosf(0.0), fosavalo.cosf(8192.001)), (0.0, 1.0, 0.0))


def desk():
    """the desk"""
    stick = Stick(2.0, 3.1, 0.5)
    own, image = Desk.set_up(DeskSetUp(stick, replace(stick, max_mag=0.5), stick)), Image.set_up(SetUp.falcon_quad())
    input = TickInput(dt=0.0625)
    own.tick(Sticks(heading=1.0, zoom=-1.0), image, input)
    same((own.heading, own.turn, own.zoom_rate, input.yaw, input.yaw_rate), (0.015625, 0.0, -0.015625, 0.015625, 0.0))
    own.centre()
    same((own.heading, own.zoom_rate), (0.0, 0.0))
    own.route_tick(Sticks(), image, input, Route([Leg(pf=(3, 0, 0), t=4)]))
    same(input.yaw, 0.0)
    broken, input = Image.from_bytes(bytes(396)), TickInput(yaw=0.25)
    refused(4, lambda: own.tick(Sticks(), broken, input))
    same(input.yaw, 0.25)
    refused(15, lambda: Desk.from_bytes(bytes(59)))


def mistakes():
    """mistakes are told by name"""
    raised(TypeError, lambda: Image.set_up(replace(SetUp(), enter="low")), "set_up.enter has to be a number, not 'low'")
    raised(TypeError, lambda: Image.set_up(TickInput()), "set_up has to be a SetUp")
    image = Image.set_up(SetUp())
    raised(TypeError, lambda: image.tick(TickInput(gyro=(1, 2))), "input.gyro has to be 3 of float, not (1, 2)")
    raised(TypeError, lambda: image.tick(TickInput(gyro=(1, None, 2))), "input.gyro[1] has to be a number, not None")
    raised(TypeError, lambda: TickInput(gyrus=1), "gyrus")
    raised(TypeError, lambda: Image.set_up(replace(SetUp(), profile=2)), "set_up.profile has to be a Profile, not 2")
    raised(TypeError, lambda: image.route_tick(TickInput(), [Leg()]), "route has to be a Route")
    raised(TypeError, lambda: fosavalo.calls().tick(bytes(396), b"", bytearray()), "image has to be a bytearray")
    raised(TypeError, lambda: fosavalo.calls().log_record(b"", -1, bytearray()), "place has to be a whole number of 64 bits, not -1")
    for kind in (Image, TickInput, Route, Pattern, Log, Desk):
        raised(TypeError, lambda: kind.from_bytes(396), "data has to be bytes, not 396")
    same(Image.from_bytes(memoryview(image.as_bytes())), image)
    # an error that is kept keeps nothing lent
    log = Log()
    error = raised(TypeError, lambda: log.check(Profile.WHOLE, 0.5, "high"), "exit has to be a number, not 'high'")
    log.append(TickInput(), image.tick(TickInput()))
    same((len(log), error.__traceback__ is not None), (1, True))
    raised(KeyError, lambda: Log().column("height"), "a record has no height; it has gyro, attitude, ")
    raised(IndexError, lambda: Log().column("gyro", 3), "gyro has parts 0 to 2")
    raised(IndexError, lambda: Log()[0])
    refused(1, lambda: Image.from_bytes(b""))
    refused(2, lambda: image.tick(b""))
    refused(11, lambda: Image.set_up(replace(SetUp(), filter=fosavalo.GyroFilter(0.0, 1000.0))))
    same(str(raised(Refusal, Image.from_bytes(bytes(396)).check)), "refused (4): the image is none that set-up, a tick or an exchange leaves")


def floats_asked():
    """a wrong floating-point environment is refused"""
    libm, image = __import__("ctypes").CDLL("libm.so.6"), Image.set_up(SetUp())
    down = {"x86_64": 0x400, "aarch64": 0x800000, "riscv64": 2}[__import__("platform").machine()]
    libm.fesetround(down)
    try:
        error = raised(Refusal, lambda: image.tick(TickInput()), "the floating-point environment of this thread does not round to nearest")
    finally:
        libm.fesetround(0)
    same(error.number, None)
    image.tick(TickInput())


def versions():
    """a library of another version, or none, is told in a sentence"""

    def ask(room):
        program = "import fosavalo\ntry:\n    fosavalo.Image.set_up(fosavalo.SetUp())\nexcept (OSError, fosavalo.Refusal) as error:\n    print(error)\n"
        env = {**os.environ, "FOSAVALO_LIB_DIR": room, "PYTHONPATH": HERE, "PYTHONDONTWRITEBYTECODE": "1"}
        return subprocess.run([sys.executable, "-c", program], check=True, capture_output=True, text=True, env=env).stdout

    with tempfile.TemporaryDirectory() as room:
        library = os.path.join(room, "libfosavalo.so")
        same(ask(room), f"libfosavalo.so is not there, nor where the system has libraries: {library}; set FOSAVALO_LIB_DIR to its folder\n")
        for code, told in (("unsigned fosavalo_version(void) { return 0x0e02; }", "is of version 0.14.2"), ("int other;", "has no version")):
            subprocess.run(["gcc", "-shared", "-fPIC", "-xc", "-", "-o", library], check=True, input=code.encode())
            same(ask(room), f"refused: libfosavalo.so {told}, this module is of {fosavalo.VERSION}: take both of one release\n")
        with open(library, "wb") as file:
            file.write(b"no library")
        assert ask(room).startswith(f"{library} cannot be loaded: "), ask(room)


for check in (constants, places, words, ticks, cut_anywhere, full_logs, series, seams, routes, desk, mistakes, floats_asked, versions):
    group(check)
print(f"{counts['passed']} passed, {counts['failed']} failed")
sys.exit(counts["failed"] != 0)
