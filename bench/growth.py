"""Draws how time and memory grow with the number of items, from what the program `growth` of harness/ prints."""

from math import log10

# the types that are drawn, with what they are called and their colour
SHAPES = {
    "list_u32": ("a list of u32", "#1b6ca8"),
    "text": ("a text, by bytes", "#2e8540"),
    "map": ("a map of u32 to u64", "#b5452c"),
    "pairs": ("a list of (u32, text)", "#7a4fa3"),
}
CALLS = {"read v": "read, variable integers", "read vl": "read under a limit of 64 MiB", "write v": "written, variable integers"}
WIDTH, HEIGHT, LEFT, TOP = 300, 240, 60, 60


def points(printed):
    """By call and shape the items with the two times and the two numbers of bytes."""
    found = {}
    for line in printed.splitlines()[1:]:
        way, configuration, shape, items, *numbers = line.split()
        original, port, _, *held = map(float, numbers)
        found.setdefault((f"{way} {configuration}", shape), []).append((int(items), original, port, *held))
    return found


def panel(at, title, unit, lines):
    """One plot: each line is a colour, whether it is dashed, and its points."""
    values = [y for _, _, line in lines for _, y in line if y > 0]
    low, high = int(log10(min(values)) // 1), int(-(-log10(max(values)) // 1))
    across = lambda items: at + (log10(items) - 1) / 6 * WIDTH
    down = lambda y: TOP + HEIGHT - (log10(max(y, 10**low)) - low) / max(high - low, 1) * HEIGHT
    yield f'<text x="{at}" y="{TOP - 14}" font-weight="bold">{title}</text>'
    for power in range(low, high + 1):
        y = down(10**power)
        yield f'<line x1="{at}" y1="{y:.1f}" x2="{at + WIDTH}" y2="{y:.1f}" stroke="#ddd"/>'
        yield f'<text x="{at - 6}" y="{y + 4:.1f}" text-anchor="end">{10**power:g} {unit}</text>'
    for power in range(1, 8, 2):
        yield f'<text x="{across(10**power):.1f}" y="{TOP + HEIGHT + 16}" text-anchor="middle">{10**power:,}</text>'
    for colour, dashed, line in lines:
        path = " ".join(f"{across(x):.1f},{down(y):.1f}" for x, y in line)
        dash = ' stroke-dasharray="5 4"' if dashed else ""
        yield f'<polyline points="{path}" fill="none" stroke="{colour}" stroke-width="1.6"{dash}/>'


def drawn(printed):
    """The plot as SVG. What was printed stands in it as a comment, from which it can be drawn again."""
    found = points(printed)
    panels = []
    for call, title in CALLS.items():
        lines = []
        for shape, (_, colour) in SHAPES.items():
            row = found.get((call, shape), [])
            lines += [(colour, True, [(x[0], x[1]) for x in row]), (colour, False, [(x[0], x[2]) for x in row])]
        panels.append((title, "ns", [line for line in lines if line[2]]))
    held = []
    for shape, (_, colour) in SHAPES.items():
        row = found.get(("read v", shape), [])
        held += [(colour, True, [(x[0], x[3]) for x in row]), (colour, False, [(x[0], x[4]) for x in row])]
    panels.append(("held while it is read", "B", [line for line in held if line[2]]))
    width = LEFT + len(panels) * (WIDTH + LEFT + 10)
    text = [
        f'<svg xmlns="http://www.w3.org/2000/svg" viewBox="0 0 {width} {TOP + HEIGHT + 70}" font-family="sans-serif" font-size="11">',
        f"<!--\n{printed.rstrip()}\n-->",
        f'<rect width="{width}" height="{TOP + HEIGHT + 70}" fill="white"/>',
        f'<text x="{LEFT}" y="22" font-size="14">Time and memory for an item, by the number of items: this library (lines) and bincode 2.0.1 (dashed)</text>',
    ]
    for number, (title, unit, lines) in enumerate(panels):
        if lines:
            text += panel(LEFT + number * (WIDTH + LEFT + 10), title, unit, lines)
    for number, (name, colour) in enumerate(SHAPES.values()):
        x = LEFT + number * 170
        text.append(f'<line x1="{x}" y1="{TOP + HEIGHT + 46}" x2="{x + 24}" y2="{TOP + HEIGHT + 46}" stroke="{colour}" stroke-width="2"/>')
        text.append(f'<text x="{x + 30}" y="{TOP + HEIGHT + 50}">{name}</text>')
    return "\n".join([*text, "</svg>", ""])
