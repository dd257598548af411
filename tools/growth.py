#!/usr/bin/env python3
"""A plot of what a cell costs as n grows: nanoseconds a regular cell with no finer neighbour, ours and the Rust, on the smooth face and on noise.

    compare/times growth | python3 tools/growth.py docs/growth.png

Plain Python: the table of compare/times comes in on standard input, a PNG goes to the file named. Both scales are logarithmic.
"""

import math
import sys

from picture import BACKGROUND, png

WIDTH, HEIGHT = 720, 440
LEFT, RIGHT, TOP, BOTTOM = 60, 150, 40, 50
INK, GRID = (60, 60, 60), (222, 220, 214)
LINES = {("smooth", "ours"): (176, 92, 40), ("noisy", "ours"): (92, 74, 58),
         ("smooth", "Rust"): (222, 168, 130), ("noisy", "Rust"): (168, 156, 146)}

# Three by five dots a sign, row by row from the top, each row a digit of 0 to 7.
FONT = dict(zip("0123456789abcdefghijklmnopqrstuvwxyz, =",
                "75557 26227 71747 71717 55711 74717 74757 71111 75757 75717 "
                "25755 65656 34443 65556 74647 74644 34553 55755 72227 11152 55655 44447 57755 65555 25552 "
                "65644 25563 65655 34216 72222 55557 55552 55775 55255 55222 71247 00024 00000 07070".split()))


def read_table(lines):
    """Nanoseconds a cell, by face and by whose, as pairs with n: of the rows with mask 0."""
    costs = {key: [] for key in LINES}
    for line in lines:
        cells = [cell.strip() for cell in line.strip().strip("|").split("|")]
        if len(cells) >= 8 and cells[2] == "0":
            face, n, ours, rust = cells[0], int(cells[1]), float(cells[5]), float(cells[-2])
            for key, micros in (((face, "ours"), ours), ((face, "Rust"), rust)):
                if key in costs:
                    costs[key].append((n, 1000 * micros / n ** 3))
    return costs


class Plot:
    """Pixels, and where a point (n, nanoseconds) stands on them."""

    def __init__(self, points):
        self.pixels = [[BACKGROUND] * WIDTH for _ in range(HEIGHT)]
        self.n = [min(n for n, _ in points), max(n for n, _ in points)]
        self.cost = [10 ** math.floor(math.log10(min(c for _, c in points))), 10 ** math.ceil(math.log10(max(c for _, c in points)))]

    def at(self, n, cost):
        def along(value, low, high):
            return math.log(value / low) / math.log(high / low)

        x = LEFT + (WIDTH - LEFT - RIGHT) * along(n, *self.n)
        return x, HEIGHT - BOTTOM - (HEIGHT - TOP - BOTTOM) * along(cost, *self.cost)

    def dot(self, x, y, colour, size):
        for row in range(round(y - size / 2), round(y + size / 2)):
            for column in range(round(x - size / 2), round(x + size / 2)):
                if 0 <= row < HEIGHT and 0 <= column < WIDTH:
                    self.pixels[row][column] = colour

    def line(self, start, end, colour, size):
        steps = max(1, math.ceil(math.dist(start, end)))
        for k in range(steps + 1):
            self.dot(*(a + (b - a) * k / steps for a, b in zip(start, end)), colour, size)

    def text(self, x, y, words, colour, size=2):
        """Words whose first sign has its upper left dot at (x, y)."""
        for sign in words.lower():
            for row, bits in enumerate(FONT[sign]):
                for column in range(3):
                    if int(bits) >> (2 - column) & 1:
                        self.dot(x + size * column, y + size * row, colour, size)
            x += 4 * size


def draw(costs):
    plot = Plot([point for points in costs.values() for point in points])
    cost = plot.cost[0]
    while cost <= plot.cost[1]:
        plot.line(plot.at(plot.n[0], cost), plot.at(plot.n[1], cost), GRID, 1)
        plot.text(LEFT - 14 - 8 * len(str(cost)), plot.at(plot.n[0], cost)[1] - 4, str(cost), INK)
        cost *= 10
    for n, _ in costs["smooth", "ours"]:
        plot.line(plot.at(n, plot.cost[0]), plot.at(n, plot.cost[1]), GRID, 1)
        plot.text(plot.at(n, plot.cost[0])[0] - 4 * len(str(n)), HEIGHT - BOTTOM + 12, str(n), INK)
    plot.text(LEFT - 44, 14, "nanoseconds a cell", INK)
    plot.text(WIDTH - RIGHT - 60, HEIGHT - 20, "subdivisions", INK)
    for (face, whose), points in costs.items():
        colour = LINES[face, whose]
        places = [plot.at(*point) for point in points]
        for start, end in zip(places, places[1:]):
            plot.line(start, end, colour, 2)
        for place in places:
            plot.dot(*place, colour, 6)
        plot.text(places[-1][0] + 12, places[-1][1] - 4, "%s, %s" % (whose, face), colour)
    return plot.pixels


def main():
    if len(sys.argv) != 2:
        sys.exit("usage: growth.py FILE.png < TABLE")
    costs = read_table(sys.stdin)
    if not all(costs.values()):
        sys.exit("growth.py: this is no table of compare/times")
    try:
        with open(sys.argv[1], "wb") as out:
            out.write(png(draw(costs)))
    except OSError as reason:
        sys.exit("growth.py: %s" % reason)


if __name__ == "__main__":
    main()
