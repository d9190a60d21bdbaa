#!/usr/bin/env python3
"""Draws how the engine works out a resultant, the steps of docs/ARCHITECTURE.md: tools/draw_run.py > docs/run.svg

The picture paints its own background, in light and in dark colours."""
from html import escape

WIDTH, HEIGHT = 900, 640
LEFT, WIDE = 60, 480            # the column of the run
RIGHT, NARROW = 620, 250        # the column of a split
STYLE = """
  .page { fill: #ffffff } .box { fill: #eef3fa; stroke: #3b5b8c }
  .ask { fill: #fdf4e3; stroke: #9a6a12 } .end { fill: #e8f5ea; stroke: #2f7d3b }
  text { font-family: sans-serif; fill: #1b1f24 } .head { font-size: 14px; font-weight: bold } .line, .side { font-size: 12px }
  .crate { font-size: 11px; font-family: monospace; fill: #48525e } .way { fill: none; stroke: #48525e; stroke-width: 1.5 }
  #tip path { fill: #48525e }
  @media (prefers-color-scheme: dark) {
    .page { fill: #0d1117 } .box { fill: #16233a; stroke: #7aa2dd }
    .ask { fill: #33270f; stroke: #d9a441 } .end { fill: #12301a; stroke: #5fbf70 }
    text { fill: #e6edf3 } .crate { fill: #a9b4c0 } .way { stroke: #a9b4c0 } #tip path { fill: #a9b4c0 }
  }
"""


def text(x, y, kind, words, anchor="start"):
    return '<text x="%d" y="%d" class="%s" text-anchor="%s">%s</text>' % (x, y, kind, anchor, escape(words))


def box(kind, x, y, width, height, head, lines=(), crates=""):
    """A box with a heading, lines below it (a pair is a condition and what is done), and the crates at its right."""
    yield '<rect x="%d" y="%d" width="%d" height="%d" rx="6" class="%s"/>' % (x, y, width, height, kind)
    yield text(x + 12, y + 21, "head", head)
    if crates:
        yield text(x + width - 12, y + 21, "crate", crates, "end")
    for i, line in enumerate(lines):
        pair = line if isinstance(line, tuple) else (line, "")
        yield text(x + 12, y + 41 + 21 * i, "line", pair[0])
        if pair[1]:
            yield text(x + 190, y + 41 + 21 * i, "line", pair[1])


def way(*points):
    """An arrow through the points."""
    return '<path class="way" marker-end="url(#tip)" d="M%s"/>' % " L".join("%d,%d" % point for point in points)


def run():
    yield from box("box", LEFT, 20, WIDE, 52, "1  run on f and g modulo n",
                   ["the polynomial with fewer words goes first; an exchange costs a sign"], "resultant")
    yield from box("box", LEFT, 100, WIDE, 52, "2  load the words",
                   ["n odd and below 2^31: multiplied by 2^32 modulo n; otherwise as sent"], "modulus_windows")
    yield from box("box", LEFT, 180, WIDE, 52, "3  Euclid without inverses",
                   ["no test and no inverse on the way; zero leading words are dropped"], "resultant_euclid")
    yield from box("ask", LEFT, 260, WIDE, 52, "4  one greatest common divisor with n",
                   ["of which kind is the product of the leading words?"], "bezout, residue")
    yield from box("box", LEFT, 360, WIDE, 140, "5  general attempt",
                   [("leading word a unit:", "divide, with one inverse"), ("leading word zero:", "drop it"),
                    ("constant a unit:", "read both from the other end"), ("none of these:", "content, unit polynomial, monic polynomial"),
                    "from the sent words, until a constant is left or a coefficient splits n"], "resultant_attempt, window_factor")
    yield from box("end", LEFT, 560, WIDE, 52, "the resultant modulo n",
                   ["the service wipes the working words and returns it"], "resultant_service, answers")
    for top, bottom in (72, 100), (152, 180), (232, 260), (312, 360), (500, 560):
        yield way((300, top), (300, bottom - 2))
    yield text(308, 341, "side", "nilpotent")
    yield text(308, 535, "side", "value")
    yield way((LEFT, 286), (28, 286), (28, 586), (LEFT - 2, 586))
    yield text(32, 279, "side", "unit")


def split():
    yield from box("box", RIGHT, 260, NARROW, 52, "6  n splits", ["n = n1 n2, coprime, both above 1"], "residue")
    yield from box("box", RIGHT, 360, NARROW, 52, "7  run on each", ["modulo n1, n2, from the sent words"], "resultant")
    yield from box("box", RIGHT, 460, NARROW, 52, "8  join", ["by the Chinese remainder theorem"], "residue")
    yield way((LEFT + WIDE, 276), (RIGHT - 2, 276))
    yield text(580, 269, "side", "splitting", "middle")
    yield way((LEFT + WIDE, 430), (580, 430), (580, 298), (RIGHT - 2, 298))
    yield text(LEFT + WIDE + 4, 446, "side", "splits n")
    for top, bottom in (312, 360), (412, 460):
        yield way((745, top), (745, bottom - 2))
    yield way((RIGHT + NARROW, 386), (886, 386), (886, 46), (LEFT + WIDE + 2, 46))
    yield text(713, 39, "side", "run calls itself, with a smaller modulus", "middle")
    yield way((745, 512), (745, 586), (LEFT + WIDE + 2, 586))


def main():
    print('<svg xmlns="http://www.w3.org/2000/svg" width="%d" height="%d" viewBox="0 0 %d %d">' % (WIDTH, HEIGHT, WIDTH, HEIGHT))
    print("<title>How the engine works out a resultant</title>")
    print("<style>%s</style>" % STYLE)
    print('<defs><marker id="tip" viewBox="0 0 8 8" refX="7" refY="4" markerWidth="7" markerHeight="7" orient="auto">'
          '<path d="M0,0 L8,4 L0,8 z"/></marker></defs>')
    print('<rect class="page" width="%d" height="%d"/>' % (WIDTH, HEIGHT))
    print("\n".join(list(run()) + list(split())))
    print("</svg>")


main()
