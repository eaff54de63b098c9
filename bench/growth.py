"""Draws docs/growth.svg and writes docs/GROWTH.md from target/bench/shapes.txt and loads.txt, what `bench` and `bench loads`
printed, and what `bench growth` printed, a star each: lines n s trials product-ns plain-ns."""
import sys

stars = [(lines, *map(int, figures)) for lines, *figures in map(str.split, sys.stdin)]
rows = [figures for lines, *figures in stars if lines == "random"]
WIDTH, HEIGHT, LEFT, BOTTOM, TOP, RIGHT = 640, 400, 70, 50, 20, 90
most = max(r[3] for r in rows) / 1000
shades = ["#c6dbef", "#9ecae1", "#6baed6", "#4292c6", "#2171b5", "#08519c", "#08306b"]


def x(n):
    return LEFT + (n - 3) * (WIDTH - LEFT - RIGHT) / 6


def y(us):
    return HEIGHT - BOTTOM - us * (HEIGHT - BOTTOM - TOP) / most


svg = [
    f'<svg xmlns="http://www.w3.org/2000/svg" viewBox="0 0 {WIDTH} {HEIGHT}" font-family="sans-serif" font-size="12">',
    f'<rect width="{WIDTH}" height="{HEIGHT}" fill="white"/>',
]
for i in range(5):
    us = most * i / 4
    svg.append(f'<line x1="{LEFT}" y1="{y(us):.1f}" x2="{WIDTH - RIGHT}" y2="{y(us):.1f}" stroke="#ddd"/>')
    svg.append(f'<text x="{LEFT - 8}" y="{y(us) + 4:.1f}" text-anchor="end">{us:.0f}</text>')
for n in range(3, 10):
    svg.append(f'<text x="{x(n):.1f}" y="{HEIGHT - BOTTOM + 18}" text-anchor="middle">{n}</text>')
for s in range(2, 9):
    line = [(r[0], r[3] / 1000) for r in rows if r[1] == s]
    points = " ".join(f"{x(n):.1f},{y(us):.1f}" for n, us in line)
    svg.append(f'<polyline points="{points}" fill="none" stroke="{shades[s - 2]}" stroke-width="2"/>')
    svg.append(f'<text x="{WIDTH - RIGHT + 8}" y="{y(line[-1][1]) + 4:.1f}">{s} sites</text>')
svg.append(f'<text x="{(LEFT + WIDTH - RIGHT) / 2:.0f}" y="{HEIGHT - 10}" text-anchor="middle">relations in a star</text>')
svg.append(f'<text x="16" y="{HEIGHT / 2:.0f}" text-anchor="middle" transform="rotate(-90 16 {HEIGHT / 2:.0f})">microseconds a solve</text>')
svg.append("</svg>")
with open("docs/growth.svg", "w", encoding="utf8") as f:
    f.write("\n".join(svg) + "\n")

table = {tuple(star[:3]): star[1:] for star in stars}


def grid(named, heads, keys, cell):
    """A row for each key, which is lines and n; a column for each number of sites."""
    lines = [f"| {named} | " + " | ".join(f"s = {s}" for s in range(2, 9)) + " |", "|---|" + "---|" * 7]
    for head, key in zip(heads, keys):
        lines.append(f"| {head} | " + " | ".join(cell(table[key + (s,)]) for s in range(2, 9)) + " |")
    return lines


def by_relations(cell):
    return grid("n", range(3, 10), [("random", n) for n in range(3, 10)], cell)


def by_lines(cell):
    kinds = ["random", "metric", "hubs"]
    return grid("lines", kinds, [(kind, 9) for kind in kinds], cell)


def printed(name):
    with open(f"target/bench/{name}.txt", encoding="utf8") as f:
        return ["```", f.read().rstrip("\n"), "```"]


with open("kit-version", encoding="utf8") as f:
    kit = f.read().strip()

page = [
    "# How fast solve is, and how it grows",
    "",
    "`make bench ARGS=growth` writes this page and the plot anew. Each time is the best of fifty in one run, taken in turns with the C of bench/plain.c. Times are of one machine; the ratios are what to compare. "
    f"The archives were built by the kit `{kit}`.",
    "",
    "## Beside C",
    "",
    "bench/plain.c is written to win. Its figures are doubles, exact for these whole numbers, because the lesser of two doubles is one instruction on every x86-64 and that of two 64-bit integers is not; a trial there is one sum and one lesser for all sites at once; lines and splits are made ready by its load. Random lines have any amounts, and one in eight is closed; of metric ones no two in a row are ever cheaper than the direct one; of hubs those to and from site 0 have a tenth of the amounts of the others. `make bench ARGS='compare COUNT SEED'` holds it to the product's answers on random queries.",
    "",
    *printed("shapes"),
    "",
    "## The two loads",
    "",
    "The ordinary load reads a size for each subquery; the load from row counts works it out, one step each from the size of a smaller subquery. `star8` is a star whose middle is relation 8, so that its relations are numbered against the order in which they join in. The C does the same, its steps in doubles.",
    "",
    *printed("loads"),
    "",
    "## Growth",
    "",
    "One solve of a star of n relations at s sites with random lines: trials, and microseconds.",
    "",
    "![microseconds a solve, by relations and sites](growth.svg)",
    "",
    *by_relations(lambda r: f"{r[2]}, {r[3] / 1000:.2f} µs"),
    "",
    "The same as a ratio to that C at -O2. A small query's time is mostly that of what does not depend on its size: the board and the table of sets, the state handed over by value, and the eight lanes in which what is sent is weighed, whatever the number of sites.",
    "",
    *by_relations(lambda r: f"{r[3] / r[4]:.2f}"),
    "",
    "A star of nine by its lines, in microseconds and as that ratio. A test once a query shows of metric lines that the direct line is always enough; on others every subquery's routes are weighed.",
    "",
    *by_lines(lambda r: f"{r[3] / 1000:.2f} µs, {r[3] / r[4]:.2f}"),
]
with open("docs/GROWTH.md", "w", encoding="utf8") as f:
    f.write("\n".join(page) + "\n")
