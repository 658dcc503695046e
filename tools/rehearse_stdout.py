#!/usr/bin/env python3
"""Works out what `rehearse` must print, from the rules of docs/ and by none of the program's code.

python3 tools/rehearse_stdout.py [yyyy-mm-dd [insert|delete]] > crates/rehearse/stdout
It knows days whose bulletin is accepted and which the windows of NTP and GPS cover (up to 2034).
"""
import datetime
import sys

S = 10**9  # ticks of a second
DAY = 86_400
X = 20_000  # the starting table expires on 2024-10-04, with offset 37
OLD = 37
EPOCH = datetime.date(1970, 1, 1)

words = sys.argv[1:] or ["2025-01-01"]
date = datetime.date.fromisoformat(words[0])
insert = words[1:] in ([], ["insert"])
D = (date - EPOCH).days
NEW = OLD + 1 if insert else OLD - 1
assert D > X and date.day == 1


def text_of(day):
    return f"{EPOCH + datetime.timedelta(days=day)} (day {day})"


def part(nanos):
    """Nanoseconds after a point: none, three, six or nine digits."""
    for digits, unit in ((3, 10**6), (6, 10**3), (9, 1)):
        if nanos % unit == 0:
            return f".{nanos // unit:0{digits}}" if nanos else ""


# UTC: the day before the step has 86,400 seconds and one more, or one fewer.
def label(tick):
    """The day of UTC that holds a tick, and the ticks since it began."""
    starts = {d: (d * DAY + (OLD if d < D else NEW)) * S for d in (D - 1, D)}
    day = D if tick >= starts[D] else D - 1
    return day, tick - starts[day]


def utc(tick):
    day, n = label(tick)
    second, nanos = divmod(n, S)
    # the last minute takes all that is left of the day
    minute = min(second // 60, 24 * 60 - 1)
    clock = f"{minute // 60:02}:{minute % 60:02}:{second - 60 * minute:02}"
    return f"{EPOCH + datetime.timedelta(days=day)}T{clock}{part(nanos)}"


def posix(tick):
    day, n = label(tick)
    if n >= DAY * S:
        return "refused 13"
    return f"{day * DAY + n // S}{part(n % S)}"


def ntp(tick):
    """Seconds since 1900-01-01, which is 25,567 days before, and parts of a second, 2^32 to a second."""
    day, n = label(tick)
    if n >= DAY * S:
        return "refused 13"
    parts = n % S * 2**32 // S
    seconds = (day + 25_567) * DAY + n // S
    return f"{seconds % 2**32}" + (f" + {parts}/2^32" if parts else "")


W = (D * DAY - DAY // 2) * S  # the window opens at this smeared count
A = DAY + NEW - OLD  # its seconds in TAI


def smeared_count(tick):
    since = tick - (W + OLD * S)
    if since < 0:
        return tick - OLD * S
    if since < A * S:
        return W + since * DAY // A
    return tick - NEW * S


def smeared_tick(count):
    since = count - W
    if since < 0:
        return count + OLD * S
    if since < DAY * S:
        return W + OLD * S - (-since * A // DAY)
    return count + NEW * S


def smear(tick):
    count = smeared_count(tick) // 1_000 * 1_000
    return f"{count // S}{part(count % S)}"


def gps(tick):
    """GPS began on 1980-01-06, which is day 3,657, 19 seconds behind TAI."""
    count = tick - (3_657 * DAY + 19) * S
    week, rest = divmod(count, 7 * DAY * S)
    return f"week {week % 1_024}, {rest // 10**6} ms"


def tai(tick):
    return f"{tick // S}{part(tick % S)}"


CLOCKS = [("tai", tai, 16), ("utc", utc, 25), ("posix", posix, 16), ("smear", smear, 19), ("ntp", ntp, 30), ("gps", gps, 0)]
SHOWS = {name: show for name, show, _ in CLOCKS}

step = (D * DAY + (OLD if insert else NEW)) * S
opens = W + OLD * S
what = "inserted" if insert else "deleted"
print(f"The leap table expires on {text_of(X)}.")
print(f"A bulletin: a second is {what} right before {text_of(D)}, and the table is to expire on {text_of(D + 182)}.")
print("Accepted.\n")
print(f"TAI minus UTC goes from {OLD} to {NEW} seconds. ", end="")
print("The step is where 23:59:60 begins.\n" if insert else "The step is where 00:00:00 begins, right after 23:59:58: there is no 23:59:59.\n")
print(" " * 8 + "".join(f"{name:<{width}}" for name, _, width in CLOCKS))
for name, tick in [
    ("opens", opens),
    ("-3 s", step - 3 * S),
    ("-2 s", step - 2 * S),
    ("-1 s", step - S),
    ("step", step),
    ("middle", opens + A * S // 2),
    ("+1 s", step + S),
    ("+2 s", step + 2 * S),
    ("closes", opens + A * S),
]:
    print(f"{name:<8}" + "".join(f"{show(tick):<{width}}" for _, show, width in CLOCKS))
print()
if insert:
    print("refused 13: an inserted second, which POSIX has no number for")
print(f"""\
tai, posix: seconds since 1970-01-01, as that clock counts them
utc: date and time of day
smear: as posix, in steps of a microsecond
ntp: posix seconds, but since 1900-01-01, and the last 32 bits of them
gps: weeks since 1980-01-06, the last ten bits of them, and milliseconds of the week
opens, middle, closes: the window of smeared time, {A} s of TAI for 86400 s of its own
""")

# An event lies so many milliseconds after the step. Of the clocks that it names only the smeared one loses anything at these ticks.
EVENTS = [("tai", -500, "taken"), ("utc", 250, "given back"), ("smear", 500, "taken"), ("gps", 750, "denied"), ("ntp", 1_000, "given back")]


def read(name, tick):
    return smeared_tick(smeared_count(tick) // 1_000 * 1_000) if name == "smear" else tick


def apart(tick):
    length = abs(tick - step)
    side = "before" if tick < step else "after"
    return f"{length // S}{part(length % S)} s {side} the step"


def written(name, stamp, action, answer):
    print(f"  {name:<9}{stamp:<25}{action:<11}{answer}")


print("What becomes of seat 42, as the feeds write it and the joiner answers:")
if not insert:
    missing = f"{date - datetime.timedelta(days=1)}T23:59:59.500"
    written("utc", missing, "denied", "refused 12: a second that its day does not have")
for name, millis, action in EVENTS:
    tick = step + millis * 10**6
    written(name, SHOWS[name](tick), action, f"accepted, TAI tick {read(name, tick)}")
print("and one of before the step that comes late:")
written("posix", posix(step - 250 * 10**6), "denied", "refused 15: the tick lies before the last accepted one, whichever its feed")
print()
print("The order in which the joiner hands it out:")
for place, (name, millis, action) in enumerate(EVENTS, 1):
    tick = read(name, step + millis * 10**6)
    print(f"  {place}. {apart(tick)}: seat 42 of tool 7 was {action}, by the {name} clock")
print("Then refused 17: no record waits, and a feed is idle.")
