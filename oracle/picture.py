#!/usr/bin/env python3
# Draws docs/error.svg, the worst error of an answer by the size of x, from the figures in docs/error.txt, which
# `oracle/run accuracy picture` measures. With `check` it draws nothing, and says whether the picture is that of the
# figures: it ends with 1 where it is not.

import math
import sys
from pathlib import Path

DOCS = Path(__file__).resolve().parent.parent / "docs"
TABLE, PICTURE = DOCS / "error.txt", DOCS / "error.svg"

# The picture's size, and the field of the two lines in it.
WIDTH, HEIGHT = 900, 560
LEFT, RIGHT, TOP, BOTTOM = 104, 884, 92, 470

# The ends of the axes: powers of two in |x|, of ten in ulps.
LEAST_X, MOST_X = -52, -1
LEAST_Y, MOST_Y = -1, 7

STYLE = """
text { font: 14px sans-serif; fill: #1f2328; }
.paper { fill: #ffffff; }
.title { font-size: 18px; font-weight: bold; }
.small { font-size: 12px; }
.grid { stroke: #d8dee4; }
.frame { fill: none; stroke: #59636e; }
.mark { stroke: #59636e; stroke-dasharray: 2 4; }
.loss { fill: none; stroke: #0b57c2; stroke-width: 3; }
.growth { fill: none; stroke: #c2410c; stroke-width: 3; stroke-dasharray: 9 5; }
@media (prefers-color-scheme: dark) {
  text { fill: #e6edf3; }
  .paper { fill: #0d1117; }
  .grid { stroke: #30363d; }
  .frame, .mark { stroke: #9198a1; }
  .loss { stroke: #6cb2ff; }
  .growth { stroke: #ff9d57; }
}
"""


# Where 2^k stands on the axis of |x|, and so many ulps on the other.
def across(k):
    return LEFT + (RIGHT - LEFT) * (k - LEAST_X) / (MOST_X - LEAST_X)


def up(ulps):
    return BOTTOM - (BOTTOM - TOP) * (math.log10(ulps) - LEAST_Y) / (MOST_Y - LEAST_Y)


# 2^k in decimals, as 9.3e-10.
def decimals(k):
    return f"{2.0**k:.1e}".replace("e-0", "e-")


# The figures: the sign of x, k for the x from 2^k to 2^(k+1) in size, and the worst error there.
def figures(text):
    for line in text.splitlines():
        if line and not line.startswith("#"):
            x, _, _, worst, *_ = line.split()
            yield x[0], int(x[3:]), float(worst)


def line(kind, x1, y1, x2, y2):
    return f'<line class="{kind}" x1="{x1:.1f}" y1="{y1:.1f}" x2="{x2:.1f}" y2="{y2:.1f}"/>'


def words(x, y, text, anchor="start", kind="", turn=""):
    kind = f' class="{kind}"' if kind else ""
    return f'<text{kind} x="{x:.1f}" y="{y:.1f}" text-anchor="{anchor}"{turn}>\n{text}</text>'


# The line of the losses or of the growths, level over each binade.
def steps(kind, sign, rows):
    points = []
    for _, k, worst in sorted(row for row in rows if row[0] == sign):
        points += [f"{across(k):.1f},{up(worst):.1f}", f"{across(k + 1):.1f},{up(worst):.1f}"]
    written = "\n".join(" ".join(points[i : i + 8]) for i in range(0, len(points), 8))
    return f'<polyline class="{kind}" points="\n{written}"/>'


# The whole picture.
def draw(text):
    rows = list(figures(text))
    out = [
        f'<svg xmlns="http://www.w3.org/2000/svg" viewBox="0 0 {WIDTH} {HEIGHT}" role="img">',
        "<title>Worst error of an answer by the size of x</title>",
        f"<style>{STYLE}</style>",
        f'<rect class="paper" width="{WIDTH}" height="{HEIGHT}"/>',
        words(LEFT, 30, "How far off is the worst answer, by the size of x?", kind="title"),
        words(LEFT, 52, "y is such that from 1/2 to 1 is left of a loss, or that 1 grows to at most 2"),
    ]
    for power in range(LEAST_Y, MOST_Y + 1):
        y = up(10.0**power)
        out += [line("grid", LEFT, y, RIGHT, y), words(LEFT - 8, y + 5, f"{10.0**power:,.10g}", "end")]
    for k in range(-50, 0, 10):
        out += [line("grid", across(k), TOP, across(k), BOTTOM), words(across(k), BOTTOM + 20, f"2^{k}", "middle")]
        out.append(words(across(k), BOTTOM + 36, decimals(k), "middle", "small"))
    middle = (TOP + BOTTOM) / 2
    out += [
        words((LEFT + RIGHT) / 2, BOTTOM + 62, "size of x, what one cycle changes, as a fraction", "middle"),
        words(18, middle, "worst error in ulps", "middle", turn=f' transform="rotate(-90 18 {middle:.1f})"'),
        line("mark", LEFT, up(0.5), RIGHT, up(0.5)),
        words(LEFT + 6, up(0.5) + 18, "0.5: a right rounding is off by no more", kind="small"),
    ]
    for k, y, anchor, *texts in [
        (-30, TOP + 16, "end", "2^-30: losses are", "rounded right", "from here on"),
        (-29, TOP + 16, "start", "2^-29: growths are", "rounded right", "from here on"),
        (-20, TOP + 16, "start", "2^-20 (9.5e-7):", "what cells lose", "is larger"),
    ]:
        out.append(line("mark", across(k), TOP, across(k), BOTTOM))
        for n, text in enumerate(texts):
            out.append(words(across(k) + (6 if anchor == "start" else -6), y + 16 * n, text, anchor, "small"))
    out += [steps("loss", "-", rows), steps("growth", "+", rows)]
    out += [
        line("loss", LEFT + 6, 72, LEFT + 46, 72), words(LEFT + 54, 77, "x below 0, a loss"),
        line("growth", LEFT + 206, 72, LEFT + 246, 72), words(LEFT + 254, 77, "x above 0, a growth"),
        f'<rect class="frame" x="{LEFT}" y="{TOP}" width="{RIGHT - LEFT}" height="{BOTTOM - TOP}"/>',
        "</svg>",
    ]
    return "".join(f"{part}\n" for part in out)


def main(arguments):
    picture = draw(TABLE.read_text())
    if arguments == ["check"]:
        if PICTURE.read_text() != picture:
            print("picture: docs/error.svg is not the picture of docs/error.txt; oracle/picture.py draws it")
            return 1
        print("picture: docs/error.svg is the picture of docs/error.txt")
        return 0
    PICTURE.write_text(picture)
    return 0


if __name__ == "__main__":
    sys.exit(main(sys.argv[1:]))
