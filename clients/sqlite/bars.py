"""Groups of bars in SVG, which any browser shows. Each bar has its number, and a letter beside its colour."""
from __future__ import annotations

from html import escape
from typing import List, NamedTuple, Sequence

WIDTH, HIGH, MARGIN, BAR = 900, 190, 60, 44
INK, COLOURS = "#222222", ("#92c5de", "#2166ac", "#b2182b", "#f4a582")


class Group(NamedTuple):
    """What stands below the bars, and their numbers."""

    name: str
    numbers: Sequence[float]


class Panel(NamedTuple):
    title: str
    groups: Sequence[Group]


def text(x: float, y: float, words: str, more: str = "") -> str:
    return f'<text x="{x:.1f}" y="{y:.1f}" {more}>{escape(words)}</text>'


def bar(x: float, base: float, number: float, most: float, place: int, name: str) -> List[str]:
    height = HIGH * number / most
    colour = COLOURS[place % len(COLOURS)]
    middle = 'text-anchor="middle" font-size="12"'
    return [
        f'<rect x="{x:.1f}" y="{base - height:.1f}" width="{BAR - 6}" height="{height:.1f}" fill="{colour}">'
        f"<title>{escape(name)}: {number:.1f}</title></rect>",
        text(x + BAR / 2 - 3, base - height - 5, f"{number:.0f}" if number >= 10 else f"{number:.1f}", middle),
        text(x + BAR / 2 - 3, base + 15, "abcdefgh"[place], middle),
    ]


def panel_parts(panel: Panel, top: float, names: Sequence[str]) -> List[str]:
    most = max(number for group in panel.groups for number in group.numbers)
    base, wide = top + 40 + HIGH, (WIDTH - 2 * MARGIN) / len(panel.groups)
    parts = [text(MARGIN, top + 12, panel.title, 'font-size="15" font-weight="bold"')]
    for place, group in enumerate(panel.groups):
        left = MARGIN + place * wide
        for number, name in enumerate(names):
            parts += bar(left + number * BAR, base, group.numbers[number], most, number, f"{group.name}, {name}")
        parts.append(text(left + len(names) * BAR / 2, base + 36, group.name, 'text-anchor="middle"'))
    parts.append(f'<line x1="{MARGIN}" y1="{base}" x2="{WIDTH - MARGIN}" y2="{base}" stroke="{INK}"/>')
    return parts


def legend(names: Sequence[str], top: float) -> List[str]:
    words = "      ".join(f"{'abcdefgh'[place]}: {name}" for place, name in enumerate(names))
    return [text(MARGIN, top, words, 'font-size="14" xml:space="preserve"')]


def svg(title: str, names: Sequence[str], panels: Sequence[Panel]) -> str:
    """The panels one below the other, and what the letters below the bars mean."""
    step = HIGH + 110
    high = 70 + len(panels) * step
    parts = [text(MARGIN, 30, title, 'font-size="18" font-weight="bold"'), *legend(names, 54)]
    for place, panel in enumerate(panels):
        parts += panel_parts(panel, 84 + place * step, names)
    return "\n".join([
        f'<svg xmlns="http://www.w3.org/2000/svg" viewBox="0 0 {WIDTH} {high}" width="{WIDTH}" height="{high}" '
        f'font-family="sans-serif" font-size="14" fill="{INK}">',
        f'<rect width="{WIDTH}" height="{high}" fill="#ffffff"/>',
        *parts,
        "</svg>",
        "",
    ])
