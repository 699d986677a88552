"""A flight log as arrays: `python3 example.py [FILE.log.. ENTER EXIT]`. Several files are the logs of one flight, in their order, as a LogSeries keeps them. Without a file
it flies a slow pass first, a wandering roll beside it, and keeps its log.

Each column is an array of floats; numpy.frombuffer(column, dtype="float32") takes it as it is.
"""

import math
import sys
from dataclasses import replace

from fosavalo import MOST_MARGINS, Image, Leg, Log, LogSeries, Pilot, Profile, SeriesCheck, SetUp, TickInput, slow_flags


def fly(set_up, ticks):
    image, series = Image.set_up(set_up), LogSeries()
    aircraft = (0.0, 0.1, 0.0)  # a hand's breadth east of the start, by its own estimate
    for tick in range(ticks):
        # how far the aircraft is from where the segment has it now
        apart = math.dist(set_up.segment.sample(image.time).position, aircraft)
        roll = 1.5 + 0.4 * math.sin(tick / 25)
        input = TickInput(gyro=(roll, 0.0, 0.0), tracking_error=apart, planner=(0.5, -0.25, 0.125))
        series.append(input, image.tick(input))
    return series.logs()


def column(logs, name):
    first, *more = (log.column(name) for log in logs)
    for each in more:
        first.extend(each)
    return first


def main(words):
    if words:
        *files, enter, exit = words
        logs, enter, exit = [Log.from_bytes(open(file, "rb").read()) for file in files], float(enter), float(exit)
    else:
        set_up = replace(SetUp.falcon_quad(), segment=Leg(pf=(3.0, 0.0, 0.0), t=8.0))
        logs, enter, exit = fly(set_up, 400), set_up.enter, set_up.exit

    margins, pilots, rolls = column(logs, "margin"), column(logs, "pilot"), column(logs, "gyro")
    changes = [place for place in range(1, len(pilots)) if pilots[place] != pilots[place - 1]]
    print(f"{len(margins)} records; margins {min(margins):.4f} to {max(margins):.4f}, roll rates {min(rolls):.4f} to {max(rolls):.4f} rad/s")
    for place in changes:
        print(f"record {place}: the {Pilot(pilots[place])!s} takes over at a margin of {margins[place]:.4f}")
    check = SeriesCheck(Profile.WHOLE, enter, exit)
    for log in logs:
        check.log(log)
    wrong = check.verdict
    print("checked: right" if wrong is None else f"checked: wrong at record {wrong}, counted from 0, at a margin of {margins[wrong]:.4f}")
    # as many as one call takes
    same = slow_flags(margins[:MOST_MARGINS], enter, exit) == [Pilot(min(pilot, 1)) for pilot in pilots[:MOST_MARGINS]]
    print(f"by its margins alone, looked back through: {'the same' if same else 'another'}")


if __name__ == "__main__":
    main(sys.argv[1:])
