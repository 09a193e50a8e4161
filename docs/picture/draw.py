#!/usr/bin/env python3
"""Draws what examples/curve.c prints (on standard input) as an SVG (on standard output): the pitching moment over the angle of
attack, by the moved table and by the published one left unmoved."""
import sys

WIDTH, HEIGHT = 860, 520
LEFT, RIGHT, TOP, BOTTOM = 84, 700, 74, 446
ALPHA, MOMENT = (-150, 500), (-0.7, 0.25)
INK, SOFT, GRID, GOOD, BAD = "#1f2933", "#5f6b76", "#e3e7eb", "#1f6fb4", "#c8502b"
CUT, SHOWN, INCIDENCE = 313, 100, 35


def x(alpha):
    return LEFT + (alpha - ALPHA[0]) * (RIGHT - LEFT) / (ALPHA[1] - ALPHA[0])


def y(moment):
    return BOTTOM - (moment - MOMENT[0]) * (BOTTOM - TOP) / (MOMENT[1] - MOMENT[0])


def signed(number, places):
    return f"{number:.{places}f}".replace("-", "\N{MINUS SIGN}")


def text(at_x, at_y, words, colour=INK, size=14, anchor="start", weight="normal"):
    print(f'<text x="{at_x:.1f}" y="{at_y:.1f}" fill="{colour}" font-size="{size}" text-anchor="{anchor}" '
          f'font-weight="{weight}">{words}</text>')


def line(x1, y1, x2, y2, colour, width=1.0, more=""):
    print(f'<line x1="{x1:.1f}" y1="{y1:.1f}" x2="{x2:.1f}" y2="{y2:.1f}" stroke="{colour}" stroke-width="{width}" {more}/>')


def curve(points, colour):
    path = " ".join(f"{x(alpha):.1f},{y(moment):.1f}" for alpha, moment in points)
    print(f'<polyline points="{path}" fill="none" stroke="{colour}" stroke-width="2.5" stroke-linejoin="round"/>')


def dot(alpha, moment, colour):
    print(f'<circle cx="{x(alpha):.1f}" cy="{y(moment):.1f}" r="5" fill="{colour}" stroke="#fff" stroke-width="1.5"/>')


rows = [tuple(int(word) for word in row.split()) for row in sys.stdin]
right = {alpha: value / 1e17 for alpha, value, _ in rows}
wrong = {alpha: value / 1e17 for alpha, _, value in rows}
kept = [alpha for alpha in sorted(right) if ALPHA[0] <= alpha <= ALPHA[1] and (alpha % 5 == 0 or 270 < alpha < 320)]

print(f'<svg xmlns="http://www.w3.org/2000/svg" viewBox="0 0 {WIDTH} {HEIGHT}" width="{WIDTH}" height="{HEIGHT}" '
      f'font-family="Helvetica, Arial, \'DejaVu Sans\', sans-serif">')
print('<title>The pitching moment over the angle of attack, read right and read wrong</title>')
print(f'<rect width="{WIDTH}" height="{HEIGHT}" fill="#fff"/>')
text(LEFT, 30, f"A vane set along the wing reads {INCIDENCE} mrad more than the model", size=18, weight="bold")
text(LEFT, 52, "Pitching moment of the Cumulus One, all other readings 0", SOFT)

for step in range(-7, 3):
    line(LEFT, y(step / 10), RIGHT, y(step / 10), SOFT if step == 0 else GRID)
    text(LEFT - 10, y(step / 10) + 5, signed(step / 10, 1), SOFT, anchor="end")
for alpha in range(-100, 501, 100):
    line(x(alpha), BOTTOM, x(alpha), BOTTOM + 6, SOFT)
    text(x(alpha), BOTTOM + 23, signed(alpha, 0), SOFT, anchor="middle")
line(LEFT, BOTTOM, RIGHT, BOTTOM, SOFT)
text((LEFT + RIGHT) / 2, BOTTOM + 50, "angle of attack in the model (mrad)", anchor="middle")
print(f'<text transform="translate(26 {(TOP + BOTTOM) / 2}) rotate(-90)" fill="{INK}" font-size="14" text-anchor="middle">'
      f'pitching moment C<tspan font-size="10" dy="3">m</tspan></text>')

line(x(CUT), TOP, x(CUT), BOTTOM, SOFT, 1.2, 'stroke-dasharray="5 4"')
text(x(CUT) + 8, TOP + 14, f"the cut, {CUT} mrad", SOFT)
text(x(CUT) - 10, BOTTOM - 12, "low piece", SOFT, 12, "end")
text(x(CUT) + 10, BOTTOM - 12, "high piece", SOFT, 12)

curve([(alpha, right[alpha]) for alpha in kept], GOOD)
curve([(alpha, wrong[alpha]) for alpha in kept], BAD)
last = kept[-1]
text(RIGHT + 10, y(right[last]) - 20, "read right", GOOD, 15, weight="bold")
text(RIGHT + 10, y(right[last]) - 3, f"table moved by {signed(-INCIDENCE, 0)}", GOOD, 13)
text(RIGHT + 10, y(wrong[last]) + 15, "read wrong", BAD, 15, weight="bold")
text(RIGHT + 10, y(wrong[last]) + 32, "table left unmoved", BAD, 13)

early = CUT - INCIDENCE
line(x(early), y(wrong[early]) - 7, x(early), y(wrong[early]) + 7, BAD, 2)
text(x(early) - 6, y(wrong[early]) + 24, f"its cut, at {early}", BAD, 12, "end")

line(x(SHOWN), y(right[SHOWN]), x(SHOWN), y(wrong[SHOWN]), INK, 1.5)
dot(SHOWN, right[SHOWN], GOOD)
dot(SHOWN, wrong[SHOWN], BAD)
text(x(SHOWN) + 12, y(right[SHOWN]) - 21, f"at {SHOWN} the vane reads {SHOWN + INCIDENCE}", INK, 13)
text(x(SHOWN) + 12, y(right[SHOWN]) - 4, signed(right[SHOWN], 3), GOOD, 13, weight="bold")
text(x(SHOWN) - 12, y(wrong[SHOWN]) + 5, signed(wrong[SHOWN], 3), BAD, 13, "end", "bold")
text(x(SHOWN) - 12, y(wrong[SHOWN]) + 22, f"{signed(right[SHOWN] - wrong[SHOWN], 3)} too low", BAD, 13, "end")
print("</svg>")
