"""Draws docs/layers.svg from crates.txt: a layer for each section, a box for each crate, and which sections a section stands on."""
from html import escape

WIDTH, LEFT, BOX, GAP, HEAD, ROW = 960, 16, 26, 8, 24, 34
ROOM = WIDTH - 2 * LEFT - 24
COLOURS = ["#e8eef7", "#e6f3ea", "#f7f0e2", "#f3e8f4", "#e4f2f4", "#f8e9e6", "#eeeee6", "#ececf4"]


def rows_of(names):
    """The boxes of a layer, in rows: (crate, where it begins, how wide)."""
    rows, x = [[]], 0
    for name in names:
        wide = 16 + 7.4 * len(name)
        if x + wide > ROOM:
            rows.append([])
            x = 0
        rows[-1].append((name, x, wide))
        x += wide + GAP
    return rows


def drawing(crates, sections):
    """The picture: the first section lowest, since all others stand on it."""
    home = {crate: section for section, _, crate, _ in crates}
    on = {section: [] for section, _, _ in sections}
    for section, _, _, below in crates:
        for crate in below:
            if crate in home and home[crate] != section and home[crate] not in on[section]:
                on[section].append(home[crate])
    order = [section for section, _, _ in sections]
    parts, y = [], 16
    for at in range(len(sections) - 1, -1, -1):
        section, about, names = sections[at]
        rows = rows_of(names)
        high = HEAD + len(rows) * ROW + 26
        parts.append('<rect x="%d" y="%d" width="%d" height="%d" rx="6" fill="%s" stroke="#8a8f98"/>' % (LEFT, y, WIDTH - 2 * LEFT, high, COLOURS[at % len(COLOURS)]))
        parts.append('<text x="%d" y="%d"><tspan font-weight="bold">%s</tspan><tspan fill="#444">: %s</tspan></text>' % (LEFT + 12, y + 18, escape(section), escape(about)))
        for r, row in enumerate(rows):
            for name, x, wide in row:
                top = y + HEAD + 4 + r * ROW
                parts.append('<rect x="%.1f" y="%d" width="%.1f" height="%d" rx="3" fill="#fff" stroke="#5b6470"/>' % (LEFT + 12 + x, top, wide, BOX))
                parts.append('<text x="%.1f" y="%d" text-anchor="middle" font-family="monospace">%s</text>' % (LEFT + 12 + x + wide / 2, top + 17, escape(name)))
        stands = sorted(on[section], key=order.index)
        foot = "stands on: " + ", ".join(stands) if stands else "stands on nothing of this repository"
        parts.append('<text x="%d" y="%d" fill="#444" font-style="italic">%s</text>' % (LEFT + 12, y + high - 9, escape(foot)))
        y += high + 12
    head = '<svg xmlns="http://www.w3.org/2000/svg" viewBox="0 0 %d %d" width="%d" height="%d" font-family="sans-serif" font-size="12">' % (WIDTH, y + 4, WIDTH, y + 4)
    back = '<rect width="100%" height="100%" fill="#fff"/>'
    return "\n".join([head, "<title>The layers: a section of crates.txt each, what stands above uses what stands below</title>", back, *parts, "</svg>", ""])
