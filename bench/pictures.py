"""Writes pictures for an encoder to standard output, as YUV4MPEG2 with 4:2:0 chroma: a texture that moves, with some noise.

pictures.py WIDTH HEIGHT COUNT
"""
import math
import random
import sys


def texture(size):
    """Waves of three lengths, with noise of a seed."""
    noise = random.Random(265)
    return bytes(
        int(128 + 50 * math.sin(place / 23) + 30 * math.sin(place / 7.3) + 20 * math.sin(place / 301) + noise.randint(-6, 6))
        for place in range(size)
    )


def plane(texture, width, height, moved):
    """A plane whose rows begin at places of the texture that move from picture to picture."""
    room = len(texture) - width
    return b"".join(texture[at : at + width] for at in ((row * 5 + moved * 3 + row // 64 * 997) % room for row in range(height)))


def main():
    width, height, count = map(int, sys.argv[1:4])
    out = sys.stdout.buffer
    waves = texture(1 << 18)
    out.write(f"YUV4MPEG2 W{width} H{height} F30:1 Ip A1:1 C420\n".encode())
    for number in range(count):
        out.write(b"FRAME\n")
        out.write(plane(waves, width, height, number))
        out.write(plane(waves, width // 2, height // 2, number + 40) * 2)


main()
