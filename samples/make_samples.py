#!/usr/bin/env python3
"""Makes the sample payloads of this folder and the listings that meshlist must print for them.

A sample NAME is NAME.bin (kind 2, raw bytes) and NAME.txt (the listing). The listings come from the descriptions below, not from a reader.
A payload of kind 0 is NAME.equi, one of kind 1 NAME.cbmp; these have no listing.
"""
import struct
from math import cos, pi, sin
from pathlib import Path

HERE = Path(__file__).parent
HEADING = "eye texture mode first points\n"


class Bits:
    def __init__(self):
        self.bits = []

    def put(self, value, width):
        assert 0 <= value < (1 << width) or width == 0
        self.bits += [(value >> (width - 1 - i)) & 1 for i in range(width)]

    def align(self, free=0):
        while len(self.bits) % 8:
            self.bits.append(free)

    def bytes(self, free=0):
        self.align(free)
        return bytes(int("".join(map(str, self.bits[i : i + 8])), 2) for i in range(0, len(self.bits), 8))


def width(count):
    w = 0
    while (1 << w) < 2 * count:
        w += 1
    return w


def zigzag(delta):
    return 2 * delta if delta >= 0 else -2 * delta - 1


def box(kind, body, long=False):
    """A box with a size of 4 bytes, or with a long one: 8 bytes behind the type, and the 4 bytes are 1."""
    if long:
        return (1).to_bytes(4, "big") + kind + (16 + len(body)).to_bytes(8, "big") + body
    return (8 + len(body)).to_bytes(4, "big") + kind + body


def mesh(pool, vertices, submeshes, free=0, long=False):
    """A mesh box: pool words, vertices of five coordinate numbers, submeshes (texture, mode, points)."""
    b = Bits()
    b.put(len(pool), 32)
    for word in pool:
        b.put(word, 32)
    b.put(len(vertices), 32)
    last = [0] * 5
    for vertex in vertices:
        for k in range(5):
            b.put(zigzag(vertex[k] - last[k]), width(len(pool)))
        last = list(vertex)
    b.align(free)
    b.put(len(submeshes), 32)
    for texture, mode, points in submeshes:
        b.put(texture, 8)
        b.put(mode, 8)
        b.put(len(points), 32)
        at = 0
        for point in points:
            b.put(zigzag(point - at), width(len(vertices)))
            at = point
    return box(b"mesh", b.bytes(free), long)


def listing(meshes):
    text, first, count, textures = HEADING, 0, 0, {}
    for number, submeshes in enumerate(meshes):
        eye = number + 1 if len(meshes) == 2 else 0
        for texture, mode, points in submeshes:
            text += f"{eye} {texture} {mode} {first} {len(points)}\n"
            first += len(points)
            count += 1
            textures[texture] = textures.get(texture, 0) + len(points)
    for texture, points in textures.items():
        text += f"texture {texture} points {points}\n"
    return text + f"total {len(meshes)} {count} {first}\n"


def word(x):
    """The bits of the float next to x among the multiples of 1/4096, so that they do not depend on the last digit of a sine."""
    return int.from_bytes(struct.pack(">f", round(x * 4096) / 4096 + 0.0), "big")


def pooled(points):
    """The pool of the points' coordinates, and the points as vertices over it."""
    rows = [[word(x) for x in point] for point in points]
    pool = sorted({x for row in rows for x in row})
    numbers = {x: number for number, x in enumerate(pool)}
    return pool, [tuple(numbers[x] for x in row) for row in rows]


def dome(texture, centre, turn, sectors=24, rings=5):
    """Half a sphere seen by a fisheye lens: a fan in the middle, a strip for each further ring.

    The lens looks along -z; its middle is at `centre` of the texture, and its picture is turned by `turn`.
    """
    places = [(0, 0)] + [(ring, sector) for ring in range(1, rings + 1) for sector in range(sectors)]
    points = []
    for ring, sector in places:
        off, around = ring / rings * pi / 2, 2 * pi * sector / sectors
        far = 0.29 * off + 0.004 * off**3
        points.append((sin(off) * cos(around), sin(off) * sin(around), -cos(off),
                       centre[0] + far * cos(around + turn), centre[1] + far * sin(around + turn)))
    pool, vertices = pooled(points)

    def at(ring, sector):
        return 1 + (ring - 1) * sectors + sector % sectors

    fan = [0] + [at(1, sector) for sector in range(sectors + 1)]
    strips = [[at(ring + far, sector) for sector in range(sectors + 1) for far in (0, 1)] for ring in range(1, rings)]
    return pool, vertices, [(texture, 2, fan)] + [(texture, 1, strip) for strip in strips]


def globe(texture, gores=40, rings=8):
    """A whole sphere whose texture is a map of longitude and latitude: a strip for each gore, from pole to pole."""
    places = [(ring / rings, gore / gores) for gore in range(gores + 1) for ring in range(rings + 1)]
    points = []
    for v, u in places:
        latitude, longitude = (v - 0.5) * pi, (u - 0.5) * 2 * pi
        points.append((cos(latitude) * sin(longitude), sin(latitude), -cos(latitude) * cos(longitude), u, v))
    pool, vertices = pooled(points)
    row = rings + 1
    strips = [[row * (gore + far) + ring for ring in range(row) for far in (1, 0)] for gore in range(gores)]
    return pool, vertices, [(texture, 1, strip) for strip in strips]


def equi(*bounds):
    """A payload of kind 0: top, bottom, left, right as shares of the sphere."""
    return bytes(4) + b"".join(round(share * 2**32).to_bytes(4, "big") for share in bounds)


def cbmp(padding):
    """A payload of kind 1."""
    return bytes(8) + padding.to_bytes(4, "big")


def save(name, payload, text):
    (HERE / f"{name}.bin").write_bytes(payload)
    (HERE / f"{name}.txt").write_text(text)


ONE = 0x3F800000
INFINITY = 0x7F800000
NAN = 0x7FC00000
SMALL = ([0, ONE], [(0, 0, 0, 0, 0), (1, 0, 0, 1, 0), (0, 1, 0, 0, 1)], [(0, 0, [0, 1, 2])])

left = ([0, ONE, 0xBF800000, 0x3F000000, 0x3E800000], [(1, 2, 2, 0, 0), (1, 1, 2, 3, 0), (2, 1, 2, 3, 1), (2, 2, 2, 0, 1)],
        [(0, 0, [0, 1, 2, 0, 2, 3]), (1, 1, [0, 1, 3, 2]), (1, 2, [3, 2, 1])])
right = ([0, ONE, 0xBF800000, 0x3F000000], [(1, 2, 2, 3, 0), (1, 1, 2, 1, 0), (2, 1, 2, 1, 1)], [(0, 0, [0, 1, 2]), (2, 0, [2, 1, 0])])

m1 = mesh(*SMALL)
save("m1", m1, listing([SMALL[2]]))
save("empty", b"", listing([]))
save("two_eyes", mesh(*left) + mesh(*right), listing([left[2], right[2]]))
again = ([0, ONE], SMALL[1], [(5, 0, [0]), (0, 0, [0, 1]), (5, 1, [2])])
once = ([0, ONE], SMALL[1], [(0, 2, [0, 1, 2])])
save("textures", mesh(*again) + mesh(*once), listing([again[2], once[2]]))
every = ([0, ONE], SMALL[1], [(255 - t, t % 4, [0] * (1 + t % 7)) for t in range(256)])
save("all_textures", mesh(*every), listing([every[2]]))
save("skipped", box(b"free", b"anything") + mesh(*SMALL, free=1) + box(b"mdat", m1) + b"\xff" * 7, listing([SMALL[2]]))
long_boxes = [box(b"free", b"anything", long=True), mesh(*left, long=True), box(b"mdat", m1), mesh(*right),
              box(b"free", b"", long=True)]
save("long_sizes", b"".join(long_boxes), listing([left[2], right[2]]))
save("damaged", mesh(*left)[:-2] + b"\xff\xff" + mesh(*right), "refused 8\n")
save("refused_2", bytes(16385), "refused 2\n")
save("refused_3", (38).to_bytes(4, "big") + m1[4:38], "refused 3\n")
long_m1 = mesh(*SMALL, long=True)
save("refused_3_long_size", m1 + long_m1[:15], "refused 3\n")
save("refused_6", m1[:-1], "refused 6\n")
# What follows the type, 00000002 00000000, is then a long size, past the end.
save("refused_6_size_1", (1).to_bytes(4, "big") + m1[4:], "refused 6\n")
save("refused_6_long_size", long_m1[:8] + (15).to_bytes(8, "big") + long_m1[16:], "refused 6\n")
save("refused_7", m1[:8] + (0).to_bytes(4, "big") + m1[12:], "refused 7\n")
save("refused_8", m1[:38] + b"\x0f" + m1[39:], "refused 8\n")
save("refused_17", mesh([0, INFINITY], *SMALL[1:]), "refused 17\n")
save("refused_17_undrawn", mesh([0, ONE, NAN], *SMALL[1:]), "refused 17\n")
save("refused_18", m1 * 3, "refused 18\n")
save("refused_18_unread", m1 + box(b"free", m1) + m1 + box(b"mesh", b""), "refused 18\n")
save("refused_18_long_size", m1 + long_m1 + long_m1[:8], "refused 18\n")

eyes = [dome(0, (0.49, 0.51), 0.0), dome(1, (0.52, 0.49), 0.06)]
save("dome", b"".join(mesh(*eye) for eye in eyes), listing([eye[2] for eye in eyes]))
sphere = globe(0)
save("globe", mesh(*sphere), listing([sphere[2]]))
(HERE / "crop.equi").write_bytes(equi(1 / 16, 1 / 8, 1 / 4, 1 / 4))
(HERE / "cube.cbmp").write_bytes(cbmp(64))
