"""Writes bytes like those of headers: flags, small Exp-Golomb numbers, 8 bits and 5 bits in turn, with each 03 that 7.3.1.1 asks for.

headers.py FILE BYTES
"""
import random
import sys


def golomb(value):
    """The spelling of an Exp-Golomb number."""
    digits = bin(value + 1)[2:]
    return "0" * (len(digits) - 1) + digits


def mix(dice):
    """The bits of eight elements, of which some 8 bits are zeros."""
    small = [min(int(dice.expovariate(0.5)), 4000) for _ in range(3)]
    level = dice.choice([0, dice.randrange(256), dice.randrange(256)])
    flag = [dice.choice("01") for _ in range(3)]
    return flag[0] + golomb(small[0]) + flag[1] + golomb(small[1]) + f"{level:08b}" + flag[2] + golomb(small[2]) + f"{dice.randrange(32):05b}"


def protected(payload):
    """The bytes with a 03 before each byte up to 3 behind two zero bytes."""
    out, zeros = bytearray(), 0
    for byte in payload:
        if zeros == 2 and byte <= 3:
            out.append(3)
            zeros = 0
        out.append(byte)
        zeros = min(zeros + 1, 2) if byte == 0 else 0
    return bytes(out)


def main():
    dice = random.Random(1)
    bits = "".join(mix(dice) for _ in range(200_000))
    bits = bits[: len(bits) // 8 * 8]
    piece = protected(int(bits, 2).to_bytes(len(bits) // 8, "big"))
    with open(sys.argv[1], "wb") as out:
        for _ in range(int(sys.argv[2]) // len(piece)):
            out.write(piece)


main()
