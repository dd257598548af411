#!/usr/bin/env python3
"""A picture of a listing, or of a binary STL file: its triangles, lit by their own slope, with their edges drawn.

    ./mesh examples/face-finer.record | python3 tools/picture.py docs/face.png
    ./sirveshan stl examples/face-run.records -o - | python3 tools/picture.py docs/stl.png --stl
    ./sirveshan cut examples/face.volume 30 15 22 -n 8 --all --threshold 0 -o - | ./sirveshan stl - -o - | python3 tools/picture.py docs/volume.png --stl

Plain Python: the listing or the file comes in on standard input, a PNG goes to the file named.
"""

import math
import struct
import sys
import zlib

WIDTH, HEIGHT = 720, 480
BACKGROUND, ROCK, EDGE = (250, 249, 246), (205, 176, 142), (92, 74, 58)
TURN, TILT = math.radians(-32), math.radians(52)
LIGHT = (0.36, -0.61, 0.70)


def read_listing(lines):
    """The vertices' positions and the triangles of a listing."""
    vertices, triangles = [], []
    for line in lines:
        kind, *words = line.split() or [""]
        if kind == "v":
            vertices.append([struct.unpack(">f", bytes.fromhex(word))[0] for word in words[:3]])
        elif kind == "t":
            triangles.append([int(word) for word in words])
        elif kind == "refused":
            sys.exit(line.strip())
    return vertices, triangles


def read_stl(file):
    """The corners of a file's triangles, three a triangle."""
    if len(file) < 84 or len(file) != 84 + 50 * int.from_bytes(file[80:84], "little"):
        sys.exit("this is no binary STL file")
    vertices = []
    for nine in struct.iter_unpack("<12x9f2x", file[84:]):
        vertices += [nine[0:3], nine[3:6], nine[6:9]]
    return vertices, [range(k, k + 3) for k in range(0, len(vertices), 3)]


def turned(point):
    """A position as the eye sees it: across, up, and how near it is."""
    x, y, z = point
    x, y = x * math.cos(TURN) - y * math.sin(TURN), x * math.sin(TURN) + y * math.cos(TURN)
    y, z = y * math.sin(TILT) - z * math.cos(TILT), y * math.cos(TILT) + z * math.sin(TILT)
    return x, -y, -z


def on_screen(points):
    """The points scaled to fill the picture, with a margin; nearness keeps its order."""
    margin = 24
    low = [min(p[k] for p in points) for k in (0, 1)]
    high = [max(p[k] for p in points) for k in (0, 1)]
    scale = min((WIDTH - 2 * margin) / (high[0] - low[0]), (HEIGHT - 2 * margin) / (high[1] - low[1]))
    middle = [(low[k] + high[k]) / 2 for k in (0, 1)]
    return [(WIDTH / 2 + scale * (p[0] - middle[0]), HEIGHT / 2 - scale * (p[1] - middle[1]), scale * p[2])
            for p in points]


def lit(a, b, c):
    """The rock's colour on a triangle, by the angle between its normal and the light."""
    u, v = ([q[k] - a[k] for k in range(3)] for q in (b, c))
    normal = [u[1] * v[2] - u[2] * v[1], u[2] * v[0] - u[0] * v[2], u[0] * v[1] - u[1] * v[0]]
    length = math.sqrt(sum(k * k for k in normal)) or 1
    light = abs(sum(n * l for n, l in zip(normal, LIGHT))) / length
    return tuple(min(255, round(part * (0.5 + 0.62 * light))) for part in ROCK)


def side(p, q, x, y):
    return (q[0] - p[0]) * (y - p[1]) - (q[1] - p[1]) * (x - p[0])


def fill(pixels, nearness, corners, colour):
    """A triangle, its edges drawn about a pixel wide, where nothing nearer stands."""
    a, b, c = corners
    whole = side(a, b, c[0], c[1])
    if abs(whole) < 1e-6:
        return
    lengths = [math.dist(p[:2], q[:2]) or 1 for p, q in ((b, c), (c, a), (a, b))]
    for y in range(max(0, int(min(p[1] for p in corners))), min(HEIGHT, int(max(p[1] for p in corners)) + 2)):
        for x in range(max(0, int(min(p[0] for p in corners))), min(WIDTH, int(max(p[0] for p in corners)) + 2)):
            areas = [side(p, q, x, y) / whole for p, q in ((b, c), (c, a), (a, b))]
            if min(areas) < 0:
                continue
            near = sum(area * p[2] for area, p in zip(areas, corners))
            if near <= nearness[y][x]:
                continue
            nearness[y][x] = near
            distance = min(area * abs(whole) / length for area, length in zip(areas, lengths))
            pixels[y][x] = EDGE if distance < 0.55 else colour


def png(pixels):
    """The bytes of a PNG with these rows of pixels."""
    rows = b"".join(b"\0" + bytes(part for pixel in row for part in pixel) for row in pixels)

    def chunk(kind, body):
        return struct.pack(">I", len(body)) + kind + body + struct.pack(">I", zlib.crc32(kind + body))

    header = struct.pack(">IIBBBBB", len(pixels[0]), len(pixels), 8, 2, 0, 0, 0)
    return b"\x89PNG\r\n\x1a\n" + chunk(b"IHDR", header) + chunk(b"IDAT", zlib.compress(rows, 9)) + chunk(b"IEND", b"")


def main():
    if len(sys.argv) not in (2, 3) or sys.argv[2:] not in ([], ["--stl"]):
        sys.exit("usage: picture.py FILE.png < LISTING, or picture.py FILE.png --stl < STL")
    vertices, triangles = read_stl(sys.stdin.buffer.read()) if sys.argv[2:] else read_listing(sys.stdin)
    if not triangles:
        sys.exit("no triangle to draw")
    points = on_screen([turned(vertex) for vertex in vertices])
    pixels = [[BACKGROUND] * WIDTH for _ in range(HEIGHT)]
    nearness = [[-math.inf] * WIDTH for _ in range(HEIGHT)]
    for corners in triangles:
        fill(pixels, nearness, [points[k] for k in corners], lit(*(vertices[k] for k in corners)))
    try:
        with open(sys.argv[1], "wb") as out:
            out.write(png(pixels))
    except OSError as reason:
        sys.exit("picture.py: %s" % reason)


if __name__ == "__main__":
    main()
