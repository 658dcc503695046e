#!/usr/bin/env python3
"""Draws smeared time against TAI around a step: python3 tools/smear_svg.py > docs/smear.svg

The figures are those of the definitions in crates/utc/specs: a window opens 43,200 s before the midnight of a
step and lasts 86,400 s of smeared time, and A seconds of TAI: 86,401 where a second is inserted, 86,399 where
one is deleted. At E seconds of TAI into it smeared time is E * 86,400 / A into it. What is drawn is how far the
clocks are off from one without the step, TAI minus the old offset: one second of a day would not be seen otherwise.
"""
LENGTH = 86_400  # the window in smeared time
LEAD = 43_200  # from the opening to midnight

# TAI seconds from the opening of the window, drawn from 6 hours before it
FIRST, LAST = -21_600, 108_000

LEFT, RIGHT, TOP, HEIGHT = 90, 730, 110, 170
GAP = 150

STYLE = """
  text { font: 13px sans-serif; fill: #222; }
  .title { font-size: 16px; font-weight: bold; }
  .small { font-size: 12px; }
  .axis { stroke: #555; stroke-width: 1; fill: none; }
  .grid { stroke: #999; stroke-width: 1; stroke-dasharray: 3 4; fill: none; }
  .window { fill: #3b7dd8; fill-opacity: 0.12; }
  .smeared { stroke: #1f63c0; stroke-width: 3; fill: none; }
  .utc { stroke: #c2571a; stroke-width: 2; fill: none; }
  .smeared-words { fill: #1f63c0; }
  .utc-words { fill: #b04a10; }
  @media (prefers-color-scheme: dark) {
    .page { fill: #16181c; }
    text { fill: #e4e4e4; }
    .axis { stroke: #aaa; }
    .grid { stroke: #777; }
    .smeared { stroke: #6aa9ff; }
    .utc { stroke: #ff9a5c; }
    .smeared-words { fill: #8abcff; }
    .utc-words { fill: #ffae7a; }
  }
"""


def smeared(tai, wide):
    """Smeared time at so many TAI seconds after the opening, counted from the opening too."""
    if tai < 0:
        return tai
    if tai < wide:
        return tai * LENGTH / wide
    return tai - (wide - LENGTH)


def x_of(tai):
    return LEFT + (tai - FIRST) / (LAST - FIRST) * (RIGHT - LEFT)


def points(pairs):
    return " ".join(f"{x:.1f},{y:.1f}" for x, y in pairs)


class Panel:
    """One step: its window is `step` seconds longer in TAI, 1 or -1."""

    def __init__(self, top, step):
        self.top = top
        self.step = step
        self.wide = LENGTH + step
        # the tick at which UTC steps: an inserted second begins, or a deleted one would
        self.steps_at = LEAD if step > 0 else LEAD - 1

    def y_of(self, apart):
        """Where a difference to the clock without the step is drawn: 0 to 1 s behind, or 0 to 1 s ahead."""
        share = -apart if self.step > 0 else 1 - apart
        return self.top + 20 + share * (HEIGHT - 40)

    def curve(self):
        ticks = [FIRST, 0, self.wide / 2, self.wide, LAST]
        return points((x_of(t), self.y_of(smeared(t, self.wide) - t)) for t in ticks)

    def utc(self):
        at = x_of(self.steps_at)
        before, after = self.y_of(0), self.y_of(-self.step)
        return points([(x_of(FIRST), before), (at, before), (at, after), (x_of(LAST), after)])

    def words(self):
        """The title, what is said below it, the name of UTC's curve, and what UTC shows in the middle."""
        if self.step > 0:
            return (
                "A second is inserted",
                f"The window takes {self.wide:,} s of TAI: each smeared second is longer by 1/86,400.",
                "UTC: one step, 23:59:60",
                "23:59:60.5",
            )
        return (
            "A second is deleted",
            f"The window takes {self.wide:,} s of TAI: each smeared second is shorter by 1/86,400.",
            "UTC: one step, no 23:59:59",
            "00:00:00.5",
        )

    def lines(self):
        title, below, utc_words, utc_middle = self.words()
        bottom = self.top + HEIGHT
        opens, closes, middle = x_of(0), x_of(self.wide), x_of(self.wide / 2)
        half = self.y_of(-self.step / 2)
        sign = "\u2212" if self.step > 0 else "+"
        yield f'<text class="title" x="{LEFT}" y="{self.top - 32}">{title}</text>'
        yield f'<text x="{LEFT}" y="{self.top - 12}">{below}</text>'
        yield f'<rect class="window" x="{opens:.1f}" y="{self.top}" width="{closes - opens:.1f}" height="{HEIGHT}"/>'
        for x in (opens, middle, closes):
            yield f'<path class="grid" d="M{x:.1f},{self.top}V{bottom}"/>'
        yield f'<path class="grid" d="M{LEFT},{half:.1f}H{RIGHT}"/>'
        yield f'<path class="axis" d="M{LEFT},{self.top}V{bottom}H{RIGHT}"/>'
        for apart, words in ((0, "0 s"), (-self.step / 2, f"{sign}0.5 s"), (-self.step, f"{sign}1 s")):
            yield f'<text class="small" text-anchor="end" x="{LEFT - 8}" y="{self.y_of(apart) + 4:.1f}">{words}</text>'
        yield f'<polyline class="utc" points="{self.utc()}"/>'
        yield f'<polyline class="smeared" points="{self.curve()}"/>'
        yield from self.names(utc_words)
        yield from self.scale((
            ("TAI", f"{0:,} s", f"{self.wide / 2:,} s", f"{self.wide:,} s"),
            ("smeared", f"{0:,} s", f"{LENGTH // 2:,} s", f"{LENGTH:,} s"),
            ("UTC", "12:00:00", utc_middle, "12:00:00"),
            ("", "the window opens", "the middle: smeared midnight", "the window closes"),
        ))

    def scale(self, rows):
        """What the clocks show at the window's opening, middle and end; TAI and smeared time since the opening."""
        for row, (name, *shown) in enumerate(rows):
            y = self.top + HEIGHT + 18 + 16 * row
            yield f'<text class="small" text-anchor="end" x="{LEFT - 8}" y="{y}">{name}</text>'
            for at, words in zip((0, self.wide / 2, self.wide), shown):
                yield f'<text class="small" text-anchor="middle" x="{x_of(at):.1f}" y="{y}">{words}</text>'

    def names(self, utc_words):
        """The curves' names, each on the side that its curve leaves free."""
        utc_y = self.y_of(-self.step * 0.2) + 4
        smeared_y = self.y_of(-self.step * 0.68) + 4
        yield f'<text class="utc-words" x="{x_of(LEAD) + 10:.1f}" y="{utc_y:.1f}">{utc_words}</text>'
        yield f'<text class="smeared-words" text-anchor="end" x="{x_of(LEAD * 0.85):.1f}" y="{smeared_y:.1f}">smeared time</text>'


def picture():
    panels = [Panel(TOP, 1), Panel(TOP + HEIGHT + GAP, -1)]
    height = panels[-1].top + HEIGHT + 84
    yield f'<svg xmlns="http://www.w3.org/2000/svg" viewBox="0 0 760 {height}" role="img" aria-labelledby="name">'
    yield '<title id="name">Smeared time against TAI around an inserted and a deleted second</title>'
    yield f"<style>{STYLE}</style>"
    yield f'<rect class="page" width="760" height="{height}" fill="#fff"/>'
    yield f'<text x="{LEFT}" y="28">Across: TAI, around the midnight of a step. The window opens {LEAD:,} s before that midnight.</text>'
    yield f'<text x="{LEFT}" y="48">Up: how far a clock is off from TAI minus the old offset. Below: seconds since the opening, and UTC.</text>'
    for panel in panels:
        yield from panel.lines()
    yield "</svg>"


print("\n".join(picture()))
