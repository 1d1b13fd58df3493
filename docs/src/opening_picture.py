"""The picture of a room that opens at eight: the radon example, shut from midnight on and aired from eight.

    opening_picture.py PICTURE

PICTURE gets an SVG: each daughter's share of the parent's activity, minute by minute, as a line, and the steady share that document
01's balance gives at the rate of the hour, dashed. Daughters with less than a hundredth of the parent's activity are left out, and
two that cannot be told apart have one line. The factors are the reference's; the examples' test holds the program `opening` to them.
"""

import pathlib
import sys

import reference as ref
from plain_help import answer_help

BOOK = pathlib.Path(__file__).resolve().parents[2] / "examples" / "radon.book"
PERIODS = [(0, 480), (400, 240)]  # shut until eight, then four air changes an hour until noon
NAMES = {1: "Po-218", 2: "Pb-214", 4: "Bi-214 and Po-214"}
COLOURS = {1: "#0072b2", 2: "#d55e00", 4: "#009e73"}
LEFT, TOP, WIDTH, HEIGHT = 56, 16, 640, 300
ALL = sum(minutes for _, minutes in PERIODS)


def minute_by_minute(book):
    """The factors after 0, 1, 2, … minutes."""
    factors = ref.shut_room(book)
    seen = [factors]
    for v, minutes in PERIODS:
        for _ in range(minutes):
            factors = ref.minute_later(v, book, factors)
            seen.append(factors)
    return seen


def x_of(minute):
    return round(LEFT + WIDTH * minute / ALL, 1)


def y_of(grains):
    return round(TOP + HEIGHT * (1 - grains / ref.G), 1)


def text(x, y, words, anchor, colour="#333"):
    return f'<text x="{x}" y="{y}" text-anchor="{anchor}" fill="{colour}">{words}</text>'


def stroke(x1, y1, x2, y2, style):
    return f'<line x1="{x1}" y1="{y1}" x2="{x2}" y2="{y2}" {style}/>'


def axes():
    """The shut hours in grey, the shares from 0 to 1, and the hours of the morning."""
    eight = PERIODS[0][1]
    yield f'<rect x="{LEFT}" y="{TOP}" width="{x_of(eight) - LEFT}" height="{HEIGHT}" fill="#f0f0f0"/>'
    for quarter in range(5):
        y = y_of(ref.G * quarter // 4)
        yield stroke(LEFT, y, LEFT + WIDTH, y, 'stroke="#ccc" stroke-width="0.5"')
        yield text(LEFT - 8, y + 4, f"{quarter / 4:.2f}", "end")
    for hour in range(0, ALL // 60 + 1, 2):
        x = x_of(60 * hour)
        yield stroke(x, TOP + HEIGHT, x, TOP + HEIGHT + 5, 'stroke="#333"')
        yield text(x, TOP + HEIGHT + 20, f"{hour}:00", "middle")
    yield text(x_of(eight / 2), TOP + HEIGHT - 10, "shut", "middle")
    yield text(LEFT + WIDTH - 8, TOP + 20, "aired, 4 air changes per hour", "end")


def steady(book, member):
    """The reported steady factor, dashed, over the hours of each rate."""
    start = 0
    for v, minutes in PERIODS:
        y = y_of(ref.reported_factors(v, book)[member])
        dashes = f'stroke="{COLOURS[member]}" stroke-dasharray="4 4" stroke-width="1"'
        yield stroke(x_of(start), y, x_of(start + minutes), y, dashes)
        start += minutes


def curve(seen, member):
    points = " ".join(f"{x_of(minute)},{y_of(factors[member])}" for minute, factors in enumerate(seen))
    yield f'<polyline points="{points}" fill="none" stroke="{COLOURS[member]}" stroke-width="2"/>'


def legend():
    for row, (member, name) in enumerate(NAMES.items()):
        y = TOP + 162 + 20 * row
        yield stroke(LEFT + 170, y, LEFT + 194, y, f'stroke="{COLOURS[member]}" stroke-width="2"')
        yield text(LEFT + 202, y + 4, name, "start")
    y = TOP + 162 + 20 * len(NAMES)
    yield stroke(LEFT + 170, y, LEFT + 194, y, 'stroke="#333" stroke-dasharray="4 4"')
    yield text(LEFT + 202, y + 4, "steady at the rate of the hour", "start")


def picture():
    book = ref.read_book(BOOK.read_bytes())
    seen = minute_by_minute(book)
    width, height = LEFT + WIDTH + 24, TOP + HEIGHT + 32
    parts = [f'<svg xmlns="http://www.w3.org/2000/svg" viewBox="0 0 {width} {height}" width="{width}" height="{height}" '
             'font-family="sans-serif" font-size="12">',
             "<title>Share of the parent's activity, minute by minute, in a room shut until eight and aired afterwards</title>",
             f'<rect width="{width}" height="{height}" fill="#fff"/>', *axes()]
    for member in NAMES:
        parts += [*steady(book, member), *curve(seen, member)]
    return "\n".join([*parts, *legend(), "</svg>"]) + "\n"


def main():
    answer_help(__doc__)
    if len(sys.argv) != 2:
        sys.exit("usage: opening_picture.py PICTURE")
    pathlib.Path(sys.argv[1]).write_text(picture(), encoding="utf-8")


if __name__ == "__main__":
    main()
