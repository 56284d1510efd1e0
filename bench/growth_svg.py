"""Draws panels with axes, units and labels as SVG. All colors can be read on a white and on a black
page."""
import math
from dataclasses import dataclass
from html import escape

WIDTH, HEIGHT = 320, 260
LEFT, RIGHT, TOP, BOTTOM = 62, 300, 58, 205
TEXT, GRID, COLORS = "#767676", "#8888884d", ["#2b7bba", "#c0651a"]


@dataclass
class Series:
    """Points that are joined by lines. The name is empty if the panel has only one series."""
    name: str
    points: list


@dataclass
class Panel:
    """A diagram. Its widths are on a logarithmic axis with these ticks. Its heights are on a
    logarithmic axis too, or on a linear one that starts at 0."""
    title: str
    width_label: str
    height_label: str
    width_ticks: list
    series: list
    has_log_heights: bool = False

    def height_ticks(self):
        heights = [height for series in self.series for _, height in series.points]
        if self.has_log_heights:
            low, high = math.floor(math.log10(min(heights))), math.ceil(math.log10(max(heights)))
            return [10**power for power in range(low, high + 1)]
        return linear_ticks(max(heights))


def linear_ticks(high):
    """Returns about five multiples of a round number, from 0 to one that is not below `high`."""
    rough = high / 5
    power = 10 ** math.floor(math.log10(rough))
    step = next(power * digit for digit in (1, 2, 5, 10) if power * digit >= rough)
    return [step * number for number in range(math.ceil(high / step) + 1)]


def position(value, ticks, start, end, is_log):
    """Returns the coordinate of a value between the coordinates of the first and last ticks."""
    low, high = ticks[0], ticks[-1]
    if is_log:
        value, low, high = math.log(value), math.log(low), math.log(high)
    return start + (value - low) / (high - low) * (end - start)


def number_text(value):
    """Returns a short text for a tick: 20k, 5M, 0.5."""
    for size, letter in ((10**6, "M"), (10**4, "k")):
        if value >= size:
            return f"{value / (1000 if letter == 'k' else size):g}{letter}"
    return f"{value:,g}" if value < 1000 else f"{value:,.0f}"


def text(x, y, words, anchor="middle", more=""):
    return f'<text x="{x:.1f}" y="{y:.1f}" text-anchor="{anchor}"{more}>{escape(words)}</text>'


def line(x1, y1, x2, y2, color):
    return f'<line x1="{x1:.1f}" y1="{y1:.1f}" x2="{x2:.1f}" y2="{y2:.1f}" stroke="{color}"/>'


def axes(panel):
    """Yields the grid, the ticks and the labels of a panel."""
    for tick in panel.width_ticks:
        x = position(tick, panel.width_ticks, LEFT, RIGHT, True)
        yield line(x, TOP, x, BOTTOM, GRID)
        yield text(x, BOTTOM + 16, number_text(tick))
    heights = panel.height_ticks()
    for tick in heights:
        y = position(tick, heights, BOTTOM, TOP, panel.has_log_heights)
        yield line(LEFT, y, RIGHT, y, GRID)
        yield text(LEFT - 6, y + 4, number_text(tick), "end")
    yield line(LEFT, BOTTOM, RIGHT, BOTTOM, TEXT)
    yield line(LEFT, TOP, LEFT, BOTTOM, TEXT)
    yield text(LEFT - 50, 16, panel.title, "start", ' font-weight="bold"')
    yield text(LEFT - 50, 38, panel.height_label, "start")
    yield text((LEFT + RIGHT) / 2, BOTTOM + 38, panel.width_label)


def curve(panel, series, color):
    """Yields the line, the points and the name of a series."""
    heights = panel.height_ticks()
    points = [
        (position(width, panel.width_ticks, LEFT, RIGHT, True),
         position(height, heights, BOTTOM, TOP, panel.has_log_heights))
        for width, height in series.points
    ]
    joined = " ".join(f"{x:.1f},{y:.1f}" for x, y in points)
    yield f'<polyline points="{joined}" fill="none" stroke="{color}" stroke-width="2"/>'
    for x, y in points:
        yield f'<circle cx="{x:.1f}" cy="{y:.1f}" r="3" fill="{color}"/>'


def names(panel):
    """Yields the names of the series, each with its color."""
    for number, series in enumerate(panel.series):
        if series.name:
            y = BOTTOM - 10 - 16 * (len(panel.series) - 1 - number)
            yield text(RIGHT - 6, y, series.name, "end", f' fill="{COLORS[number]}"')


def drawing(panels):
    """Returns the SVG of panels side by side."""
    width = WIDTH * len(panels)
    lines = [
        f'<svg xmlns="http://www.w3.org/2000/svg" viewBox="0 0 {width} {HEIGHT}" width="{width}"'
        f' height="{HEIGHT}" font-family="sans-serif" font-size="12" fill="{TEXT}">',
        f"<title>{escape('; '.join(panel.title for panel in panels))}</title>",
    ]
    for number, panel in enumerate(panels):
        lines.append(f'<g transform="translate({number * WIDTH} 0)">')
        lines += axes(panel)
        for series, color in zip(panel.series, COLORS):
            lines += curve(panel, series, color)
        lines += [*names(panel), "</g>"]
    return "\n".join([*lines, "</svg>"]) + "\n"
