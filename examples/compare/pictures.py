"""Line charts in SVG, which any browser shows. No line is told from another by its colour alone."""
from __future__ import annotations

import math
import os
from dataclasses import dataclass
from html import escape
from typing import List, NamedTuple, Sequence, Tuple

WIDTH, HEIGHT = 900, 480
LEFT, RIGHT, TOP, BOTTOM = 70, 270, 70, 60
BACKGROUND, INK, GRID = "#ffffff", "#222222", "#dddddd"
# Colour, width and dashes. Of two lines at the same place the wide one shows on both sides of the narrow one.
STYLES = [
    ("#f4a582", 6, ""),
    ("#b2182b", 2, "7 4"),
    ("#92c5de", 6, ""),
    ("#2166ac", 2, "7 4"),
    ("#b8e186", 6, ""),
    ("#1a1a1a", 2, "2 7"),
]
Point = Tuple[float, float]


class Series(NamedTuple):
    name: str
    points: Sequence[Point]


@dataclass(frozen=True)
class Chart:
    name: str
    """The name of its file, without the ending."""
    title: str
    under: str
    """What stands under the title: the work and the device."""
    x_name: str
    y_name: str
    series: Sequence[Series]


class Axis(NamedTuple):
    """Numbers from `least` to `most` that go from one place of the picture to another."""

    least: float
    most: float
    begin: float
    end: float

    def place(self, number: float) -> float:
        return self.begin + (number - self.least) / (self.most - self.least) * (self.end - self.begin)

    def ticks(self) -> List[float]:
        """At most eight round numbers."""
        rough = (self.most - self.least) / 7
        power = 10 ** math.floor(math.log10(rough))
        step = next(power * factor for factor in (1, 2, 5, 10) if power * factor >= rough)
        first = math.ceil(self.least / step - 1e-9)
        return [round(step * number, 10) for number in range(first, math.floor(self.most / step + 1e-9) + 1)]


def axes_of(chart: Chart) -> Tuple[Axis, Axis]:
    """The axes, of which that to the right begins at the least number and that upwards at 0."""
    places = [point for series in chart.series for point in series.points]
    xs, ys = [x for x, _ in places], [y for _, y in places]
    widest = max(xs) if max(xs) > min(xs) else min(xs) + 1
    return (
        Axis(min(xs), widest, LEFT, WIDTH - RIGHT),
        Axis(0, max(max(ys) * 1.05, 1e-9), HEIGHT - BOTTOM, TOP),
    )


def text(x: float, y: float, words: str, more: str = "") -> str:
    return f'<text x="{x:.1f}" y="{y:.1f}" {more}>{escape(words)}</text>'


def line(x1: float, y1: float, x2: float, y2: float, more: str) -> str:
    return f'<line x1="{x1:.1f}" y1="{y1:.1f}" x2="{x2:.1f}" y2="{y2:.1f}" {more}/>'


def frame(chart: Chart, across: Axis, up: Axis) -> List[str]:
    """Title, axes, their numbers and their names."""
    parts = [
        text(LEFT, 28, chart.title, 'font-size="17" font-weight="bold"'),
        text(LEFT, 50, chart.under, 'font-size="13"'),
    ]
    for tick in up.ticks():
        y = up.place(tick)
        parts.append(line(LEFT, y, WIDTH - RIGHT, y, f'stroke="{GRID}"'))
        parts.append(text(LEFT - 8, y + 5, f"{tick:g}", 'text-anchor="end"'))
    for tick in across.ticks():
        x = across.place(tick)
        parts.append(line(x, HEIGHT - BOTTOM, x, HEIGHT - BOTTOM + 6, f'stroke="{INK}"'))
        parts.append(text(x, HEIGHT - BOTTOM + 22, f"{tick:g}", 'text-anchor="middle"'))
    parts.append(line(LEFT, HEIGHT - BOTTOM, WIDTH - RIGHT, HEIGHT - BOTTOM, f'stroke="{INK}"'))
    middle = (TOP + HEIGHT - BOTTOM) / 2
    parts.append(text((LEFT + WIDTH - RIGHT) / 2, HEIGHT - 14, chart.x_name, 'text-anchor="middle"'))
    parts.append(text(20, middle, chart.y_name, f'text-anchor="middle" transform="rotate(-90 20 {middle:.0f})"'))
    return parts


def series_parts(number: int, series: Series, across: Axis, up: Axis) -> List[str]:
    """One line with a dot at each point, and its name in the list at the right."""
    colour, width, dashes = STYLES[number % len(STYLES)]
    stroke = f'stroke="{colour}" stroke-width="{width}" stroke-linejoin="round" fill="none"'
    stroke += f' stroke-dasharray="{dashes}"' if dashes else ""
    places = [(across.place(x), up.place(y)) for x, y in series.points]
    path = " ".join(f"{x:.1f},{y:.1f}" for x, y in places)
    radius = 1.5 + width / 2
    dots = [f'<circle cx="{x:.1f}" cy="{y:.1f}" r="{radius:g}" fill="{colour}"/>' for x, y in places]
    y = TOP + 14 + 24 * number
    return [
        f'<polyline points="{path}" {stroke}><title>{escape(series.name)}</title></polyline>',
        *(dots if len(dots) <= 40 else []),
        line(WIDTH - RIGHT + 16, y - 5, WIDTH - RIGHT + 50, y - 5, stroke),
        text(WIDTH - RIGHT + 58, y, series.name),
    ]


def svg(chart: Chart) -> str:
    """The whole picture."""
    across, up = axes_of(chart)
    lines = [part for number, series in enumerate(chart.series) for part in series_parts(number, series, across, up)]
    return "\n".join(
        [
            f'<svg xmlns="http://www.w3.org/2000/svg" viewBox="0 0 {WIDTH} {HEIGHT}" style="max-width:100%" '
            f'width="{WIDTH}" font-family="sans-serif" font-size="14" fill="{INK}">',
            f'<rect width="{WIDTH}" height="{HEIGHT}" fill="{BACKGROUND}"/>',
            *frame(chart, across, up),
            *lines,
            "</svg>",
            "",
        ]
    )


def save_chart(folder: str, chart: Chart) -> str:
    """Writes the picture, and answers its path."""
    path = os.path.join(folder, chart.name + ".svg")
    with open(path, "w", encoding="utf-8") as out:
        out.write(svg(chart))
    return path
