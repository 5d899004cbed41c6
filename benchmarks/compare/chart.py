"""The picture of a run: for each case a line with a dot for each validator, on a logarithmic axis."""
import math
from xml.sax.saxutils import escape

COLORS = ("#1b6ca8", "#6fb1e0", "#c0562f", "#8a8a8a", "#3f8f4f", "#b59b00", "#7b4fa3")
LEFT, WIDTH, ROW, TOP, BOTTOM = 130, 620, 24, 70, 44
TITLE = "Milliseconds for each further instance, reading included"


def dots_of(tools, measured):
    """The number of each validator that has a figure, and its milliseconds."""
    return [(number, measured[tool.name].further() * 1000) for number, tool in enumerate(tools)
            if tool.name in measured and not measured[tool.name].fault]


def chart(tools, results):
    """Milliseconds for each further instance in one process, reading included."""
    return drawn([tool.name for tool in tools], [(case.name, dots_of(tools, measured)) for case, measured in results])


def legend(names):
    x = 20
    for number, name in enumerate(names):
        yield (f'<circle cx="{x}" cy="42" r="5" fill="{COLORS[number]}"/>'
               f'<text x="{x + 9}" y="46">{escape(name)}</text>')
        x += 30 + 7 * len(name)


def drawn(names, groups):
    """The picture of each case's dots: pairs of a validator's number and a figure."""
    values = [max(value, 0.001) for _, dots in groups for _, value in dots]
    low, high = min(values) / 1.2, max(values) * 1.2
    height = TOP + len(groups) * ROW + BOTTOM

    def across(value):
        return LEFT + WIDTH * math.log(max(value, low) / low) / math.log(high / low)

    parts = [f'<svg xmlns="http://www.w3.org/2000/svg" viewBox="0 0 {LEFT + WIDTH + 20} {height}" '
             'font-family="sans-serif" font-size="12">',
             f'<rect width="{LEFT + WIDTH + 20}" height="{height}" fill="white"/>',
             f'<text x="{LEFT}" y="22" font-size="15" font-weight="600">{TITLE}</text>', *legend(names)]
    for power in range(math.ceil(math.log10(low)), math.floor(math.log10(high)) + 1):
        x = across(10**power)
        parts.append(f'<line x1="{x:.1f}" x2="{x:.1f}" y1="{TOP - 8}" y2="{height - BOTTOM}" stroke="#ddd"/>'
                     f'<text x="{x:.1f}" y="{height - BOTTOM + 16}" text-anchor="middle">{10**power:,g}</text>')
    parts.append(f'<text x="{LEFT + WIDTH / 2}" y="{height - 6}" text-anchor="middle" fill="#555">'
                 'milliseconds (the axis is logarithmic)</text>')
    for line, (name, dots) in enumerate(groups):
        y = TOP + line * ROW + ROW / 2
        parts.append(f'<text x="{LEFT - 10}" y="{y + 4:.1f}" text-anchor="end">{escape(name)}</text>'
                     f'<line x1="{LEFT}" x2="{LEFT + WIDTH}" y1="{y:.1f}" y2="{y:.1f}" stroke="#eee"/>')
        parts += [f'<circle cx="{across(value):.1f}" cy="{y:.1f}" r="5" fill="{COLORS[number]}" opacity="0.85">'
                  f'<title>{escape(names[number])}: {value:,.3g} ms</title></circle>' for number, value in dots]
    return "\n".join([*parts, "</svg>"]) + "\n"
