#!/usr/bin/env python3
"""A second, slow calculation of the protocol of `rotation`, to hold the program against.

It shares nothing with the engine: timings are found by going through all minutes of all legs, stop by stop. Of several
cheapest timings it takes the one with the fewest minutes on the first leg that differs.

    tools/reference.py < crates/rotation/stdin | cmp - crates/rotation/stdout
"""
import sys

LIMIT = 65535
MINUTE_AREA, AMOUNT_AREA = 24000, 3000
FRAME, BOOK, SHEET = 1, 2, 3
# kind of a frame: how many bytes it has
SIZES = {0x01: 3, 0x02: 6, 0x03: 6, 0x04: 2, 0x05: 3, 0x06: 1, 0x11: 13, 0x12: 4}


class Refused(Exception):
    """number, layer, leg"""


def number(data):
    return int.from_bytes(data, "big")


class Desk:
    def __init__(self):
        self.legs, self.rates = [], [0] * 64
        self.started, self.sheet = False, None

    def cost(self, leg, minutes):
        q, t, r, _, _ = self.legs[leg]
        return q * (minutes - t) ** 2 + r, self.rates[leg] * minutes

    def line(self, text):
        if not text or len(text) > 64 or len(text) % 2 or set(text) - set("0123456789ABCDEF"):
            raise Refused(1, FRAME, 0)
        data = bytes.fromhex(text)
        if data[0] not in SIZES:
            raise Refused(2, FRAME, 0)
        if len(data) != SIZES[data[0]]:
            raise Refused(3, FRAME, 0)
        if data[0] < 0x10:
            self.started = True
            return self.sheet_call(data)
        if self.started:
            raise Refused(4, FRAME, 0)
        return self.add_leg(data) if data[0] == 0x11 else self.set_rate(data)

    def add_leg(self, data):
        q, t, lo, hi = (number(data[i : i + 2]) for i in (1, 3, 9, 11))
        r = int.from_bytes(data[5:9], "big", signed=True)
        leg = len(self.legs) + 1
        if leg > 64:
            raise Refused(5, BOOK, 65)
        if lo > hi or hi > 4095 or t > 4095:
            raise Refused(6, BOOK, leg)
        if abs(r) > 2**29:
            raise Refused(7, BOOK, leg)
        self.legs.append((q, t, r, lo, hi))
        return b"\x80"

    def set_rate(self, data):
        if not 1 <= data[1] <= 64:
            raise Refused(11, BOOK, data[1])
        self.rates[data[1] - 1] = number(data[2:4])
        return b"\x80"

    def sheet_call(self, data):
        kind, n = data[0], len(self.legs)
        name = data[1] if kind in (2, 3, 4) else 0
        if kind == 1 and self.sheet:
            raise Refused(9, SHEET, 0)
        if kind != 1 and not self.sheet:
            raise Refused(10, SHEET, name)
        if kind == 6:
            self.sheet = None
            return b"\x80"
        places = {1: n >= 1, 2: 1 <= name <= n, 3: 1 <= name < n, 4: 1 <= name < n, 5: True}
        if not places[kind]:
            raise Refused(11, SHEET, name)
        low, high = (number(data[2:4]), number(data[4:6])) if kind in (2, 3) else (0, 4095)
        total = number(data[1:3]) if kind in (1, 5) else self.sheet["total"]
        if low > high:
            raise Refused(12, SHEET, name)
        if max(low, high, total) > 4095:
            raise Refused(13, SHEET, name)
        if kind == 2 and (low < self.legs[name - 1][3] or high > self.legs[name - 1][4]):
            raise Refused(14, SHEET, name)
        if kind == 1:
            after = {"total": total, "bounds": [leg[3:] for leg in self.legs], "windows": [(0, 4095)] * n}
        else:
            after = {key: value if key == "total" else list(value) for key, value in self.sheet.items()}
            after["total"] = total
            if kind == 2:
                after["bounds"][name - 1] = (low, high)
            elif kind in (3, 4):
                after["windows"][name - 1] = (low, high)
        if MINUTE_AREA < n * (total + 1) or AMOUNT_AREA < 2 * (total + 1):
            raise Refused(15, SHEET, name)
        return self.timed(after)

    def timed(self, after):
        n, total = len(self.legs), after["total"]
        windows = after["windows"][: n - 1] + [(total, total)]
        reached = {0}
        for k in range(n):
            low, high = after["bounds"][k]
            first, last = windows[k]
            reached = {v + m for v in reached for m in range(low, high + 1) if first <= v + m <= last}
            if not reached:
                raise Refused(16, SHEET, k + 1)
        # best[v]: the least cost of the legs behind stop k when it is reached at v, and the minutes of the next leg
        best, choices = {total: (0, 0)}, []
        for k in reversed(range(n)):
            first, last = windows[k - 1] if k else (0, 0)
            low, high = after["bounds"][k]
            found = {}
            for v in range(first, last + 1):
                ways = [
                    (tuple(map(sum, zip(self.cost(k, m), best[v + m]))), m) for m in range(low, high + 1) if v + m in best
                ]
                if ways:
                    found[v] = min(ways)
            choices.insert(0, found)
            best = {v: way[0] for v, way in found.items()}
        minutes, v = [], 0
        for found in choices:
            minutes.append(found[v][1])
            v += found[v][1]
        self.sheet = after
        numbers = [(m, 2) for m in minutes] + [(c, 8) for c in best[0]]
        return bytes([0x81, n]) + b"".join(value.to_bytes(width, "big", signed=width == 8) for value, width in numbers)


def answers(text):
    lines = text[:LIMIT].split("\n")
    if lines[-1] == "":
        lines.pop()
    desk = Desk()
    for count, line in enumerate(lines, 1):
        try:
            yield desk.line(line).hex().upper()
        except Refused as refusal:
            yield "EE%02X%02X%02X%04X" % (*refusal.args, count)


if __name__ == "__main__":
    for answer in answers(sys.stdin.buffer.read().decode("latin-1")):
        print(answer)
