"""Plots as SVG files, of what bench/run measured: lines over a logarithmic axis each."""
import html
import math

WIDTH, HEIGHT, LEFT, RIGHT, TOP, BOTTOM = 640, 360, 64, 120, 36, 48
COLOURS = ("#444444", "#b00020", "#2a5db0", "#2e7d32", "#8e5bd0", "#b26a00", "#00838f", "#c2185b", "#7cb342")
STYLE = "text { font: 12px sans-serif; } .grid { stroke: #ddd; } .line { fill: none; stroke-width: 2; }"


def ticks(low, high):
    """1, 2 and 5 times each power of ten that lies between."""
    powers = range(math.floor(math.log10(low)) - 1, math.ceil(math.log10(high)) + 1)
    return [k * 10 ** p for p in powers for k in (1, 2, 5) if low <= k * 10 ** p <= high]


def number(value):
    return f"{value:,.0f}" if value >= 1 else f"{value:g}"


class Axis:
    """Where a value lies between two places of the picture."""

    def __init__(self, values, start, end):
        self.low, self.high, self.start, self.end = min(values) / 1.1, max(values) * 1.1, start, end

    def at(self, value):
        share = math.log(value / self.low) / math.log(self.high / self.low)
        return round(self.start + share * (self.end - self.start), 1)


def plot(title, across, up, lines):
    """The picture of these lines: of each a name and a list of points, none of which is 0."""
    points = [point for _, some in lines for point in some]
    xs = Axis([x for x, _ in points], LEFT, WIDTH - RIGHT)
    ys = Axis([y for _, y in points], HEIGHT - BOTTOM, TOP)
    out = [f'<svg xmlns="http://www.w3.org/2000/svg" viewBox="0 0 {WIDTH} {HEIGHT}" width="{WIDTH}" height="{HEIGHT}">',
           f'<style>{STYLE}</style><rect width="{WIDTH}" height="{HEIGHT}" fill="#fff"/>',
           f'<text x="{LEFT}" y="20" font-weight="bold">{html.escape(title)}</text>']
    for x in sorted({x for x, _ in points}):
        out.append(f'<path class="grid" d="M{xs.at(x)} {TOP}V{HEIGHT - BOTTOM}"/>')
        out.append(f'<text x="{xs.at(x)}" y="{HEIGHT - BOTTOM + 18}" text-anchor="middle">{number(x)}</text>')
    for y in ticks(ys.low, ys.high):
        out.append(f'<path class="grid" d="M{LEFT} {ys.at(y)}H{WIDTH - RIGHT}"/>')
        out.append(f'<text x="{LEFT - 6}" y="{ys.at(y) + 4}" text-anchor="end">{number(y)}</text>')
    out.append(f'<text x="{(LEFT + WIDTH - RIGHT) / 2}" y="{HEIGHT - 10}" text-anchor="middle">{html.escape(across)}</text>')
    out.append(f'<text x="12" y="{TOP - 6}">{html.escape(up)}</text>')
    if len(lines) > len(COLOURS):
        raise ValueError(f"{len(lines)} lines, and {len(COLOURS)} colours")
    names = sorted(((ys.at(some[-1][1]), name, colour, some) for (name, some), colour in zip(lines, COLOURS)), key=lambda line: line[0])
    last = TOP - 14
    for end, name, colour, some in names:
        way = "L".join(f"{xs.at(x)} {ys.at(y)}" for x, y in some)
        out.append(f'<path class="line" stroke="{colour}" d="M{way}"/>')
        out += [f'<circle cx="{xs.at(x)}" cy="{ys.at(y)}" r="3" fill="{colour}"/>' for x, y in some]
        last = max(end, last + 14)
        out.append(f'<text x="{WIDTH - RIGHT + 8}" y="{last + 4}" fill="{colour}">{html.escape(name)}</text>')
    return "\n".join([*out, "</svg>", ""])
