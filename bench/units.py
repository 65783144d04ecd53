"""Units of a byte stream, made of elements that are written as bits."""
START = b"\0\0\1"


def ue(value):
    """ue(v) of 9.2."""
    digits = bin(value + 1)[2:]
    return "0" * (len(digits) - 1) + digits


def unit(header, bits):
    """A unit with these payload bits, a stop bit behind them, and each 03 that 7.3.1.1 asks for."""
    bits += "1"
    bits += "0" * (-len(bits) % 8)
    out, zeros = bytearray(), 0
    for byte in int(bits, 2).to_bytes(len(bits) // 8, "big"):
        if zeros == 2 and byte <= 3:
            out.append(3)
            zeros = 0
        out.append(byte)
        zeros = zeros + 1 if byte == 0 else 0
    return bytes.fromhex(header) + bytes(out)
