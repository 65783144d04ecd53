"""Makes streams with rare syntax: extensions, HRD parameters, scaling lists, predicted sets, long-term pictures, weights.

    tools/clients/made_streams.py FOLDER [COUNT]
"""
import pathlib
import random
import sys

# The stream whose video set has HRD parameters with cprms_present_flag 0, which FFmpeg misreads.
TAKES_OVER = 18


class Bits:
    """Bits that are written, and the choices of one stream."""

    def __init__(self, dice):
        self.text, self.dice = "", dice

    def u(self, count, value):
        self.text += f"{value:0{count}b}" if count else ""
        return value

    def ue(self, value):
        bits = f"{value + 1:b}"
        self.text += "0" * (len(bits) - 1) + bits
        return value

    def se(self, value):
        self.ue(2 * value - 1 if value > 0 else -2 * value)
        return value

    def flag(self, value=None):
        return self.u(1, self.dice.randrange(2) if value is None else int(value))

    def flags(self, count):
        return [self.flag() for _ in range(count)]

    def below(self, count):
        return self.dice.randrange(count)

    def unit(self, kind, data=b""):
        """The unit of this type, with its emulation prevention bytes."""
        padded = self.text + "1" + "0" * (-(len(self.text) + 1) % 8)
        payload, zeros = bytearray([kind << 1, 1]), 0
        for byte in int(padded, 2).to_bytes(len(padded) // 8, "big") + data:
            if zeros >= 2 and byte <= 3:
                payload.append(3)
                zeros = 0
            payload.append(byte)
            zeros = zeros + 1 if byte == 0 else 0
        return b"\0\0\0\1" + bytes(payload)


def profile(b, top, idc):
    """7.3.3."""
    def layer():
        b.u(2, 0), b.flag(0), b.u(5, idc)
        for j in range(32):
            b.flag(j == idc)
        b.u(4, 9)
        b.u(43, 0), b.flag(0)
    layer()
    b.u(8, 93)
    present = [(b.flag(), b.flag()) for _ in range(top)]
    if top:
        for _ in range(top, 8):
            b.u(2, 0)
    for has_profile, has_level in present:
        if has_profile:
            layer()
        if has_level:
            b.u(8, 90)


def hrd(b, common, top, before):
    """E.2.2: answers the flags that later structures take over."""
    nal, vcl, sub_pic = before
    if common:
        nal, vcl, sub_pic = b.flag(), b.flag(), 0
        if nal or vcl:
            sub_pic = b.flag()
            if sub_pic:
                b.u(8, 3), b.u(5, 4), b.flag(), b.u(5, 6)
            b.u(4, 1), b.u(4, 2)
            if sub_pic:
                b.u(4, 3)
            b.u(5, 23), b.u(5, 15), b.u(5, 5)
    for _ in range(top + 1):
        general = b.flag()
        within = general or b.flag()
        low = 0
        if within:
            b.ue(b.below(9))
        else:
            low = b.flag()
        count = 1 if low else b.ue(b.below(3)) + 1
        for there in (nal, vcl):
            for _ in range(count if there else 0):
                b.ue(1000 + b.below(99)), b.ue(2000)
                if sub_pic:
                    b.ue(70), b.ue(80)
                b.flag()
    return nal, vcl, sub_pic


def ordering(b, top):
    own = b.flag()
    for _ in range(top + 1 if own else 1):
        b.ue(6), b.ue(2), b.ue(b.below(3))


def scaling(b):
    """7.3.4."""
    for size in range(4):
        for matrix in range(0, 6, 3 if size == 3 else 1):
            if not b.flag():
                b.ue(b.below((matrix // 3 if size == 3 else matrix) + 1))
            else:
                if size > 1:
                    b.se(b.below(9) - 4)
                for _ in range(min(64, 16 << 2 * size)):
                    b.se(b.below(3) - 1)


def short_term(b, idx, count, sets):
    """7.3.7: answers the set's members, each with its difference and whether the current picture uses it."""
    predicted = idx and b.flag(bool(sets[idx - 1]) and b.below(2))
    if predicted:
        if idx == count:
            b.ue(0)
        sign, size = b.flag(), b.ue(b.below(3))
        delta = (1 - 2 * sign) * (size + 1)
        members = []
        for other in [*(other for other, _ in sets[idx - 1]), 0]:
            used = b.flag()
            if (used or b.flag()) and other + delta:
                members.append((other + delta, used))
        return sorted((m for m in members if m[0] < 0), reverse=True) + sorted(m for m in members if m[0] > 0)
    negative, positive = b.ue(b.below(3)), b.ue(b.below(2))
    members = []
    for sign, number in ((-1, negative), (1, positive)):
        at = 0
        for _ in range(number):
            at += b.ue(b.below(2)) + 1
            members.append((sign * at, b.flag()))
    return members


def vps(dice, top, idc, takes_over):
    """7.3.2.1; with `takes_over` HRD parameters take over the common part of those before them."""
    b = Bits(dice)
    b.u(4, 0), b.u(2, 3), b.u(6, 0), b.u(3, top), b.flag(top == 0), b.u(16, 0xFFFF)
    profile(b, top, idc)
    ordering(b, top)
    layer, sets = b.u(6, b.below(3)), b.ue(1 if takes_over else b.below(4))
    for _ in range(sets * (layer + 1)):
        b.flag()
    if b.flag(True if takes_over else None):
        b.u(32, 1001), b.u(32, 60000)
        if b.flag():
            b.ue(5)
        before = (0, 0, 0)
        for i in range(b.ue(2 if takes_over else min(b.below(3), sets + 1))):
            b.ue(i)
            before = hrd(b, i == 0 or b.flag(not takes_over), top, before)
    b.flag(0)
    return b.unit(32)


def vui(b, top):
    if b.flag():
        if b.u(8, dice_of(b, (1, 255, 255))) == 255:
            b.u(16, 4), b.u(16, 3)
    if b.flag():
        b.flag()
    if b.flag():
        b.u(3, 5), b.flag()
        if b.flag():
            b.u(8, 1), b.u(8, 1), b.u(8, 1)
    if b.flag():
        b.ue(1), b.ue(2)
    b.flags(3)
    if b.flag():
        b.ue(0), b.ue(1), b.ue(0), b.ue(1)
    if b.flag():
        b.u(32, 1), b.u(32, 50)
        if b.flag():
            b.ue(1)
        if b.flag():
            hrd(b, True, top, (0, 0, 0))
    if b.flag():
        b.flags(3), b.ue(9), b.ue(2), b.ue(1), b.ue(15), b.ue(15)


def dice_of(b, values):
    return values[b.below(len(values))]


def sps(dice, top, idc, extended, palette):
    b = Bits(dice)
    s = {}
    b.u(4, 0), b.u(3, top), b.flag(top == 0)
    profile(b, top, idc)
    b.ue(0)
    s["chroma"] = b.ue(dice_of(b, (0, 1, 1, 3)))
    s["planes"] = b.flag() if s["chroma"] == 3 else 0
    b.ue(416), b.ue(240)
    if b.flag():
        b.ue(1), b.ue(2), b.ue(0), b.ue(1)
    depth = b.ue(0), b.ue(0)
    s["depth"] = depth
    s["lsb"] = b.ue(4) + 4
    ordering(b, top)
    b.ue(0), b.ue(3), b.ue(0), b.ue(3), b.ue(0), b.ue(0)
    if b.flag() and b.flag():
        scaling(b)
    b.flag()
    s["sao"] = b.flag()
    if b.flag():
        b.u(4, 7), b.u(4, 7), b.ue(0), b.ue(1), b.flag()
    s["sets"] = []
    for idx in range(b.ue(dice_of(b, (0, 1, 3, 4)))):
        s["sets"].append(short_term(b, idx, -1, s["sets"]))
    s["long"] = b.flag()
    s["lt_sps"] = b.ue(b.below(4)) if s["long"] else 0
    for _ in range(s["lt_sps"]):
        b.u(s["lsb"], b.below(99)), b.flag(1)
    s["mvp"] = b.flag()
    b.flag()
    if b.flag():
        vui(b, top)
    s["range"], s["scc"] = 0, 0
    s["high"] = 0
    if b.flag(extended):
        s["range"], _, _, s["scc"] = b.flag(), b.flag(0), b.flag(0), b.flag(palette or None)
        b.u(4, 0)
        if s["range"]:
            flags = b.flags(9)
            s["high"] = flags[6]
        if s["scc"]:
            s["curr"] = b.flag()
            s["palette"] = 0
            if b.flag(palette or None):
                size, more = b.ue(31), b.ue(32)
                s["palette"] = size + more
                if b.flag():
                    count = b.ue(b.below(4)) + 1
                    for _ in range((1 if s["chroma"] == 0 else 3) * count):
                        b.u(8, b.below(256))
            s["mv"] = b.u(2, dice_of(b, (0, 2)))
            b.flag()
    return b.unit(33), s


def pps(dice, s):
    b = Bits(dice)
    p = {}
    b.ue(0), b.ue(0)
    p["dependent"], p["output"], p["extra"] = b.flag(), b.flag(), b.u(3, b.below(3))
    b.flag()
    p["cabac"] = b.flag()
    p["l0"], p["l1"] = b.ue(b.below(3)), b.ue(b.below(3))
    b.se(0), b.flag(), p.setdefault("skip", b.flag())
    if b.flag():
        b.ue(1)
    b.se(-2), b.se(3)
    p["offsets"], p["weighted"], p["bi"], _, tiles, sync = b.flags(6)
    if tiles:
        columns, rows = b.ue(1 + b.below(2)), b.ue(b.below(2))
        if not b.flag():
            for _ in range(columns + rows):
                b.ue(0)
        b.flag()
    p["entries"] = tiles or sync
    p["rows"] = sync or tiles and columns + rows
    p["across"] = b.flag()
    p["override"], p["off"] = 0, 0
    if b.flag():
        p["override"], p["off"] = b.flag(), b.flag()
        if not p["off"]:
            b.se(1), b.se(-1)
    if b.flag():
        scaling(b)
    p["modification"] = b.flag()
    b.ue(0)
    p["extension"] = b.flag()
    p["cu_offsets"] = 0
    p["act"] = 0
    p["curr"] = 0
    if b.flag(s["range"] or s["scc"]):
        own, _, _, scc = b.flag(s["range"]), b.flag(0), b.flag(0), b.flag(s["scc"])
        b.u(4, 0)
        if own:
            if p["skip"]:
                b.ue(1)
            b.flag()
            p["cu_offsets"] = b.flag()
            if p["cu_offsets"]:
                b.ue(1)
                for _ in range(b.ue(b.below(4)) + 1):
                    b.se(b.below(5) - 2), b.se(b.below(5) - 2)
            b.ue(0), b.ue(0)
        if scc:
            p["curr"] = b.flag(s["curr"] and b.below(2))
            if b.flag():
                p["act"] = b.flag()
                b.se(1), b.se(2), b.se(3)
            if b.flag(s["palette"] > 0 or None):
                count = b.ue(min(b.below(4), s["palette"]))
                if count:
                    mono = b.flag(s["chroma"] == 0)
                    b.ue(0)
                    if not mono:
                        b.ue(0)
                    for _ in range((1 if mono else 3) * count):
                        b.u(8, b.below(256))
    return b.unit(34), p


def weights(b, s, kind, l0, l1):
    chroma = s["chroma"] and not s["planes"]
    b.ue(3)
    if chroma:
        b.se(1)
    for count in (l0, l1)[: 2 if kind == 0 else 1]:
        luma = [b.flag() for _ in range(count + 1)]
        both = [b.flag() if chroma else 0 for _ in range(count + 1)]
        for i in range(count + 1):
            if luma[i]:
                b.se(b.below(9) - 4), b.se(b.below(9) - 4)
            if both[i]:
                for _ in range(2):
                    b.se(b.below(9) - 4), b.se(b.below(9) - 4)


def ceil_log2(n):
    return (n - 1).bit_length()


def piece(dice, s, p, number, kind, unit_type, blocks, later=0, dependent=0):
    """7.3.6.1, of a picture of 416x240 in blocks of 64."""
    b = Bits(dice)
    dependent = dependent and p["dependent"]
    b.flag(not later)
    if 16 <= unit_type <= 23:
        b.flag(0)
    b.ue(0)
    if later:
        if p["dependent"]:
            b.flag(dependent)
        b.u(ceil_log2(blocks), later)
    if not dependent:
        b.u(p["extra"], b.below(1 << p["extra"]))
        b.ue(kind)
        if p["output"]:
            b.flag(1)
        if s["planes"]:
            b.u(2, 0)
        if unit_type not in (19, 20):
            b.u(s["lsb"], number)
            sets = s["sets"]
            if b.flag(bool(sets) and b.below(2)):
                chosen = b.u(ceil_log2(len(sets)), b.below(len(sets)))
                return None if not sets[chosen] else tail(b, s, p, kind, unit_type, sets[chosen], True)
            own = short_term(b, len(sets), len(sets), sets)
            return tail(b, s, p, kind, unit_type, own, False) if own else None
        return tail(b, s, p, kind, unit_type, [], None)
    return entries(b, p, unit_type)


def tail(b, s, p, kind, unit_type, members, from_sps):
    """The rows after the short-term set. Only lists whose use is known are followed."""
    mvp, total = 0, sum(used for _, used in members)
    if from_sps is not None:
        if s["long"]:
            own = b.ue(b.below(min(s["lt_sps"], 2) + 1)) if s["lt_sps"] else 0
            more = b.ue(b.below(3))
            for i in range(own + more):
                if i < own:
                    if s["lt_sps"] > 1:
                        b.u(ceil_log2(s["lt_sps"]), b.below(s["lt_sps"]))
                else:
                    b.u(s["lsb"], b.below(99)), b.flag(1)
                if b.flag():
                    b.ue(b.below(3))
            total += own + more
        if s["mvp"]:
            mvp = b.flag()
    sao = 0
    if s["sao"]:
        sao = b.flag()
        if s["chroma"] and not s["planes"]:
            sao |= b.flag()
    total += p["curr"]
    if kind < 2:
        l0, l1 = p["l0"], p["l1"]
        if b.flag():
            l0 = b.ue(b.below(3))
            l1 = b.ue(b.below(3)) if kind == 0 else l1
        if p["modification"] and total > 1:
            for count in (l0, l1)[: 2 if kind == 0 else 1]:
                if b.flag():
                    for _ in range(count + 1):
                        b.u(ceil_log2(total), b.below(total))
        if kind == 0:
            b.flag()
        if p["cabac"]:
            b.flag()
        if mvp:
            first = b.flag() if kind == 0 else 1
            last = l0 if first else l1
            if last:
                b.ue(b.below(last + 1))
        if p["weighted"] and kind == 1 or p["bi"] and kind == 0:
            weights(b, s, kind, l0, l1)
        b.ue(1)
        if s["scc"] and s["mv"] == 2:
            b.flag()
    b.se(b.below(5) - 2)
    if p["offsets"]:
        b.se(1), b.se(-1)
    if p["act"]:
        b.se(1), b.se(2), b.se(-1)
    if p["cu_offsets"]:
        b.flag()
    override = b.flag() if p["override"] else 0
    off = p["off"]
    if override:
        off = b.flag()
        if not off:
            b.se(1), b.se(2)
    if p["across"] and (sao or not off):
        b.flag()
    return entries(b, p, unit_type)


def entries(b, p, unit_type):
    if p["entries"]:
        count = b.ue(b.below(2) if p["rows"] else 0)
        if count:
            b.ue(7)
            for _ in range(count):
                b.u(8, b.below(256))
    if p["extension"]:
        count = b.ue(b.below(3))
        for _ in range(count):
            b.u(8, b.below(256))
    return b.unit(unit_type, b"\x77" * 9)


def stream(seed):
    dice = random.Random(seed)
    top, extended = dice.randrange(3), seed % 2
    idc = dice.choice((1, 2, 4, 6)) if not extended else dice.choice((4, 9, 11))
    sets, s = sps(dice, top, idc, extended, seed % 4 == 1)
    picture, p = pps(dice, s)
    units = [vps(dice, top, idc, seed == TAKES_OVER), sets, picture, piece(dice, s, p, 0, 2, 19, 28)]
    for number in range(1, 12):
        kind = dice.choice((0, 1, 2))
        later = [piece(dice, s, p, number, kind, 1, 28, address, dice.randrange(2)) for address in (9, 20)]
        units += [one for one in (piece(dice, s, p, number, kind, 1, 28), *later) if one]
    return b"".join(units)


def main():
    folder = pathlib.Path(sys.argv[1])
    folder.mkdir(exist_ok=True)
    for seed in range(int(sys.argv[2]) if len(sys.argv) > 2 else 28):
        (folder / f"made-{seed:02}.h265").write_bytes(stream(seed))


main()
