#!/usr/bin/env python3
"""Draws what bench/growth.c prints: the cost of a synthesis for each number of the volume, over the volume's numbers.

  plot.py < FIGURES > PLOT.svg
"""
import math
import sys

WIDTH, HEIGHT, LEFT, RIGHT, TOP, BOTTOM = 720, 400, 64, 24, 40, 56
STYLES = {"P1": ("#0072b2", "P1", ""), "P212121": ("#d55e00", "P2₁2₁2₁", "6 4")}


def rows(lines):
    """Group, length, numbers, and nanoseconds of a synthesis for each number."""
    for line in lines:
        words = line.split()
        if len(words) == 5 and words[1].isdigit():
            yield words[0], int(words[1]), int(words[2]), 1e9 * float(words[3]) / int(words[2])


def main():
    points = list(rows(sys.stdin))
    if not points:
        sys.exit("plot.py: no figures on standard input")
    low, high = (f(math.log10(p[2]) for p in points) for f in (min, max))
    low, high = math.floor(2 * low) / 2, math.ceil(2 * high) / 2
    most = math.ceil(max(p[3] for p in points) / 10) * 10

    def x(numbers):
        return LEFT + (WIDTH - LEFT - RIGHT) * (math.log10(numbers) - low) / (high - low)

    def y(ns):
        return HEIGHT - BOTTOM - (HEIGHT - TOP - BOTTOM) * ns / most

    out = ['<svg xmlns="http://www.w3.org/2000/svg" viewBox="0 0 %d %d" font-family="sans-serif" font-size="12" fill="#222">' % (WIDTH, HEIGHT),
           '<title>Nanoseconds of a synthesis for each number of the volume</title>',
           '<rect width="%d" height="%d" fill="#fff"/>' % (WIDTH, HEIGHT),
           '<text x="%d" y="20" font-size="14">Synthesis: nanoseconds for each number of the volume</text>' % LEFT]
    for ns in range(0, most + 1, 5):
        out.append('<line x1="%d" x2="%d" y1="%.1f" y2="%.1f" stroke="#ddd"/>' % (LEFT, WIDTH - RIGHT, y(ns), y(ns)))
        out.append('<text x="%d" y="%.1f" text-anchor="end">%d</text>' % (LEFT - 8, y(ns) + 4, ns))
    for power in range(math.ceil(low), math.floor(high) + 1):
        out.append('<line x1="%.1f" x2="%.1f" y1="%d" y2="%d" stroke="#ddd"/>' % (x(10**power), x(10**power), TOP, HEIGHT - BOTTOM))
        out.append('<text x="%.1f" y="%d" text-anchor="middle">10<tspan dy="-5" font-size="9">%d</tspan></text>' % (x(10**power), HEIGHT - BOTTOM + 18, power))
    out.append('<text x="%d" y="%d" text-anchor="middle">numbers of the volume</text>' % ((LEFT + WIDTH - RIGHT) // 2, HEIGHT - 14))
    for place, (group, (colour, name, dashes)) in enumerate(STYLES.items()):
        run = [(x(p[2]), y(p[3])) for p in points if p[0] == group]
        out.append('<polyline fill="none" stroke="%s" stroke-width="2" stroke-dasharray="%s" points="%s"/>'
                   % (colour, dashes, " ".join("%.1f,%.1f" % p for p in run)))
        out += ['<circle cx="%.1f" cy="%.1f" r="3" fill="%s"/>' % (*p, colour) for p in run]
        top = TOP + 8 + 20 * place
        out.append('<line x1="%d" x2="%d" y1="%d" y2="%d" stroke="%s" stroke-width="2" stroke-dasharray="%s"/>'
                   % (WIDTH - 180, WIDTH - 148, top, top, colour, dashes))
        out.append('<text x="%d" y="%d">%s</text>' % (WIDTH - 140, top + 4, name))
    print("\n".join(out + ["</svg>"]))


if __name__ == "__main__":
    main()
