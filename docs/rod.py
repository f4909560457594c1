#!/usr/bin/env python3
"""Draws a rod with pits, filters it with the program, and writes both as one PNG: before on the left, after on the right.

    python3 docs/rod.py OUT.png [--order N] [--program PATH]

The rod runs down the picture, as a line camera sees it pass. The plan is the alternate sequential filter of order N, 1 to
4: bright specks and small dark pits go, larger pits and the rod's edges stay. Standard library only.
"""
import argparse
import math
import pathlib
import random
import struct
import subprocess
import zlib

ROWS = 300
GREY, EROSION, DILATION = 0, 0, 1


# ---- the picture

def disc(picture, x, y, radius, value):
    for row in range(max(0, y - radius), min(len(picture), y + radius + 1)):
        for column in range(max(0, x - radius), min(len(picture[row]), x + radius + 1)):
            if (column - x) ** 2 + (row - y) ** 2 <= radius * radius:
                picture[row][column] = value


def rod(width):
    """A lit cylinder before a dark ground, some grain in it, dark pits of radius 0 to 5 and bright specks."""
    rng = random.Random(1)
    half = width * 3 // 8

    def ground(x):
        across = (x - width // 2) / half
        return 40 if abs(across) > 1 else 90 + 130 * math.sqrt(1 - across * across)

    picture = [[int(ground(x)) + rng.randrange(12) for x in range(width)] for _ in range(ROWS)]
    for _ in range(ROWS // 3):
        disc(picture, width // 2 + rng.randint(-half, half), rng.randrange(ROWS), rng.choice((0, 1, 1, 2, 3, 5)), rng.randrange(40))
    for _ in range(ROWS // 3):
        disc(picture, rng.randrange(width), rng.randrange(ROWS), rng.choice((0, 0, 1)), 255)
    return picture


# ---- the job and its answer

def alternate_sequential(order):
    """Opening, then closing, with all extents 1, then 2, and so on."""
    kinds = EROSION, DILATION, DILATION, EROSION
    return [(kind, extent, extent, extent, extent) for extent in range(1, order + 1) for kind in kinds]


def widest(plan):
    """As many columns as the program has queue cells for."""
    return 4096 // sum(up + down + 1 for _, _, _, up, down in plan)


def job(plan, picture):
    head = struct.pack('<BHH', GREY, len(picture[0]), len(picture))
    return bytes([len(plan)]) + b''.join(map(bytes, plan)) + head + b''.join(map(bytes, picture))


def rows_of(answer, width):
    """The rows of a full run: byte 2 and the head, byte 1 before each row, bytes 0 and 0 at the end."""
    rows = [answer[at + 1:at + 1 + width] for at in range(6, len(answer) - 2, width + 1)]
    if answer[:1] != b'\2' or answer[-2:] != b'\0\0' or len(rows) != ROWS:
        raise SystemExit('the program answers %s' % answer[-2:].hex())
    return rows


# ---- the PNG

def png(rows):
    """Grey rows as a PNG file: eight bits a pixel, no filter before each row."""
    def chunk(name, body):
        return struct.pack('>I', len(body)) + name + body + struct.pack('>I', zlib.crc32(name + body))

    head = struct.pack('>IIBBBBB', len(rows[0]), len(rows), 8, 0, 0, 0, 0)
    body = zlib.compress(b''.join(b'\0' + bytes(row) for row in rows), 9)
    return b'\x89PNG\r\n\x1a\n' + chunk(b'IHDR', head) + chunk(b'IDAT', body) + chunk(b'IEND', b'')


def twice_as_large(row):
    return bytes(value for value in row for _ in range(2))


def main():
    words = argparse.ArgumentParser()
    words.add_argument('out')
    words.add_argument('--order', type=int, choices=range(1, 5), default=2)
    words.add_argument('--program', default=str(pathlib.Path(__file__).resolve().parent.parent / 'kelafshir'))
    given = words.parse_args()
    plan = alternate_sequential(given.order)
    before = rod(min(128, widest(plan)))
    run = subprocess.run([given.program], input=job(plan, before), stdout=subprocess.PIPE, check=True)
    after = rows_of(run.stdout, len(before[0]))
    beside = [twice_as_large(bytes(left) + b'\xff' * 4 + right) for left, right in zip(before, after)]
    pathlib.Path(given.out).write_bytes(png([row for row in beside for _ in range(2)]))


if __name__ == '__main__':
    main()
