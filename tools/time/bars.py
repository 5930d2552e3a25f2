"""Pictures of figures: groups of bars over a scale of powers of ten, written as an SVG by hand."""
import math
from xml.sax.saxutils import escape

WIDTH, PANEL, LEFT, RIGHT, TOP, BETWEEN, BELOW = 760, 210, 84, 16, 74, 40, 64
COLORS = ("#1f5fa8", "#d9822b")
BAR, INK, LINE = 34, "#222222", "#cccccc"
HALO = ' stroke="#ffffff" stroke-width="3" paint-order="stroke"'


def text(x, y, words, anchor="middle", size=12, more=""):
    return f'<text x="{x:.1f}" y="{y:.1f}" text-anchor="{anchor}" font-size="{size}"{more}>{escape(words)}</text>'


def short(value):
    """A number as a few digits."""
    return f"{value:,.0f}" if value >= 100 else f"{value:.3g}"


def panel(y, title, kinds, values):
    """The parts of one scale: its lines, its bars with their numbers, and what it tells."""
    low = math.floor(math.log10(min(min(row) for row in values)))
    high = max(low + 1, math.ceil(math.log10(max(max(row) for row in values))))
    bottom, step = y + PANEL, (WIDTH - LEFT - RIGHT) / len(kinds)

    def height(value):
        return PANEL * (math.log10(value) - low) / (high - low)

    for power in range(low, high + 1):
        at = bottom - PANEL * (power - low) / (high - low)
        yield f'<line x1="{LEFT}" y1="{at:.1f}" x2="{WIDTH - RIGHT}" y2="{at:.1f}" stroke="{LINE}"/>'
        yield text(LEFT - 8, at + 4, f"{10 ** power:,}" if power >= 0 else f"{10.0 ** power:g}", "end")
    middle = y + PANEL / 2
    yield text(18, middle, title, more=f' transform="rotate(-90 18 {middle:.1f})"')
    for number, row in enumerate(values):
        left = LEFT + step * number + (step - len(row) * BAR) / 2
        for side, value in enumerate(row):
            top = max(2, height(value))
            yield f'<rect x="{left + side * BAR:.1f}" y="{bottom - top:.1f}" width="{BAR - 4}" height="{top:.1f}" fill="{COLORS[side]}"/>'
            yield text(left + side * BAR + BAR / 2 - 2, bottom - top - 4, short(value), size=10, more=HALO)
    yield f'<line x1="{LEFT}" y1="{bottom}" x2="{WIDTH - RIGHT}" y2="{bottom}" stroke="{INK}"/>'


def drawn(title, names, kinds, panels):
    """The SVG of some scales, one below another, over the same kinds: of each kind a bar for each name."""
    height = TOP + len(panels) * PANEL + (len(panels) - 1) * BETWEEN + BELOW
    parts = [text(WIDTH / 2, 24, title, size=16)]
    for side, name in enumerate(names):
        x = LEFT + side * 160
        parts += [f'<rect x="{x}" y="38" width="12" height="12" fill="{COLORS[side]}"/>', text(x + 18, 49, name, "start")]
    for number, (told, values) in enumerate(panels):
        parts += panel(TOP + number * (PANEL + BETWEEN), told, kinds, values)
    step = (WIDTH - LEFT - RIGHT) / len(kinds)
    for number, kind in enumerate(kinds):
        for line, words in enumerate(kind.split("\n")):
            parts.append(text(LEFT + step * (number + 0.5), height - BELOW + 20 + 16 * line, words))
    inside = "\n".join(parts)
    return (
        f'<svg xmlns="http://www.w3.org/2000/svg" width="{WIDTH}" height="{height}" viewBox="0 0 {WIDTH} {height}" role="img" font-family="sans-serif" fill="{INK}">\n'
        f'<title>{escape(title)}</title>\n<rect width="{WIDTH}" height="{height}" fill="#ffffff"/>\n{inside}\n</svg>\n'
    )
