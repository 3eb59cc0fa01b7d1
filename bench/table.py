"""table.py ROWS SVG: prints the rows as a table, and draws their ratios as bars to SVG. A row that has nothing beside it
has a time for its aim, and is not drawn."""
import math
import sys
from html import escape

LEFT, RIGHT, WIDTH, HIGH, TOP = 290, 740, 960, 26, 56
LEAST, MOST = 0.1, 1000


def read(path):
    rows = []
    for line in open(path, encoding="ascii").read().splitlines():
        what, beside, plain, archive, aim = line.split("\t")
        rows.append((what, beside, float(plain), float(archive), float(aim)))
    return rows


def shown(seconds):
    """A time in the unit that suits it."""
    if seconds < 5e-8:
        return f"{seconds * 1e9:.1f} ns"
    return f"{seconds * 1e3:.1f} ms" if seconds >= 1e-3 else f"{seconds * 1e6:.2f} us"


def cells(row):
    what, beside, plain, archive, aim = row
    if not beside:
        return what, "", "", shown(archive), "", shown(aim) if aim else ""
    return what, beside, shown(plain), shown(archive), f"{archive / plain:.2f}", f"{aim:g}" if aim else ""


def table(rows):
    lines = [("What", "Beside", "that", "archive", "ratio", "aim"), *map(cells, rows)]
    widths = [max(len(line[i]) for line in lines) for i in range(6)]
    for line in lines:
        left = "  ".join(text.ljust(width) for text, width in zip(line[:2], widths))
        print(left + "  " + "  ".join(text.rjust(width) for text, width in zip(line[2:], widths[2:])))


def across(ratio):
    """Where a ratio stands on the logarithmic scale."""
    part = math.log(min(max(ratio, LEAST), MOST) / LEAST) / math.log(MOST / LEAST)
    return LEFT + part * (RIGHT - LEFT)


def bar(row, y):
    what, beside, plain, archive, aim = row
    ratio, one = archive / plain, across(1)
    x, end = sorted((one, across(ratio)))
    colour = "#2a7f62" if aim and ratio <= aim else "#b3541e" if aim else "#5b6770"
    parts = [f'<text x="{LEFT - 8}" y="{y + 16}" text-anchor="end">{escape(what)}</text>',
             f'<rect x="{x:.1f}" y="{y + 5}" width="{max(end - x, 1):.1f}" height="14" fill="{colour}">'
             f'<title>{escape(what)} beside {escape(beside)}: {ratio:.2f}</title></rect>',
             f'<text x="{RIGHT + 12}" y="{y + 16}">{ratio:.2f} of {escape(beside)}</text>']
    if aim:
        at = across(aim)
        parts.append(f'<line x1="{at:.1f}" y1="{y + 2}" x2="{at:.1f}" y2="{y + 22}" stroke="#000" stroke-width="2"/>')
    return "\n".join(parts)


def plot(rows):
    bottom = TOP + HIGH * len(rows)
    parts = [f'<svg xmlns="http://www.w3.org/2000/svg" width="{WIDTH}" height="{bottom + 40}" '
             'font-family="sans-serif" font-size="13">',
             f'<rect width="{WIDTH}" height="{bottom + 40}" fill="#fff"/>',
             '<text x="12" y="22" font-size="16">The archive\'s time over that of other code, logarithmic</text>',
             '<text x="12" y="42" fill="#555">Green: within its aim, the black mark. Brown: past it. Grey: no aim.</text>']
    for tick in (0.1, 1, 10, 100, 1000):
        x = across(tick)
        parts.append(f'<line x1="{x:.1f}" y1="{TOP}" x2="{x:.1f}" y2="{bottom}" stroke="{"#888" if tick == 1 else "#ddd"}"/>')
        parts.append(f'<text x="{x:.1f}" y="{bottom + 18}" text-anchor="middle" fill="#555">{tick:g}</text>')
    parts += [bar(row, TOP + HIGH * i) for i, row in enumerate(rows)]
    return "\n".join(parts + ["</svg>"]) + "\n"


def main():
    rows = read(sys.argv[1])
    table(rows)
    with open(sys.argv[2], "w", encoding="utf-8") as file:
        file.write(plot([row for row in rows if row[1]]))
    print(f"plot: {sys.argv[2]}")


if __name__ == "__main__":
    main()
