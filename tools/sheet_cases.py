#!/usr/bin/env python3
"""Writes the table of right and broken sheets that the program `sheetcases` runs.

The reader below is written from docs/SHEET.md alone, apart from the proved one: what it says of each text is the
program's stored output.

    tools/sheet_cases.py crates/sheetcases
"""
import os
import sys

HEADER = [("own", 1, 127), ("wait", 1, 60000), ("boottime", 0, 2**32 - 1), ("inhibit", 0, 65535),
          ("startall", 0, 1), ("resetall", 0, 1), ("stopall", 0, 1), ("slaves", 0, 126)]
SLAVE = [("node", 1, 127), ("mandatory", 0, 1), ("keep", 0, 1), ("type", 0, 2**32 - 1), ("vendor", 0, 2**32 - 1),
         ("product", 0, 2**32 - 1), ("revision", 0, 2**32 - 1), ("serial", 0, 2**32 - 1), ("hb", 0, 65535),
         ("sets", 0, 32)]
SET = [("index", 0, 65535), ("sub", 0, 255), ("size", 1, 4), ("value", 0, None)]


class Refused(Exception):
    def __init__(self, number, line, layer, why):
        self.number, self.line, self.layer, self.why = number, line, layer, why


class Text:
    def __init__(self, data):
        self.rest, self.line = data, 1

    def number(self, key, low, high):
        line, end = self.line, self.rest.find(b"\n")
        due = "'%s=' with a number and a line end is due here" % key
        if end < 0:
            raise Refused(2, line, "line", due)
        found, eq, value = self.rest[:end].partition(b"=")
        if not eq or found != key.encode():
            raise Refused(2, line, "line", due)
        digits = all(48 <= c <= 57 for c in value)
        if not value or not digits or (len(value) > 1 and value[0] == 48) or int(value) >= 2**32:
            raise Refused(1, line, "digits", "the value must be a decimal number up to 4294967295 without leading zeros")
        n = int(value)
        if not low <= n <= high:
            raise Refused(3, line, "sheet", "%s must be from %d to %d" % (key, low, high))
        self.rest, self.line = self.rest[end + 1:], line + 1
        return n

    def fault(self, number, why):
        """Refuses the line that was read last."""
        raise Refused(number, self.line - 1, "sheet", why)


def judge(data):
    """(slaves, sets) of a right text, or the refusal."""
    text, sets = Text(data), 0
    head = {key: text.number(key, low, high) for key, low, high in HEADER}
    last = 0
    for _ in range(head["slaves"]):
        slave = {}
        for key, low, high in SLAVE:
            slave[key] = n = text.number(key, low, high)
            if key == "node" and (n == head["own"] or n <= last):
                text.fault(4, "node must be above the last slave's and other than own")
            if key == "hb" and slave["keep"] == 1 and n == 0:
                text.fault(5, "hb must be above 0 for a keep-alive slave")
            if key == "sets" and sets + n > 256:
                text.fault(6, "a sheet has at most 256 sets in all")
        last, sets = slave["node"], sets + slave["sets"]
        for _ in range(slave["sets"]):
            size = 0
            for key, low, high in SET:
                n = text.number(key, low, 256**size - 1 if high is None else high)
                size = n if key == "size" else size
    if text.rest:
        raise Refused(7, text.line, "sheet", "nothing may follow the last line")
    return head["slaves"], sets


def header(slaves, own=1):
    return ["own=%d" % own, "wait=100", "boottime=0", "inhibit=0", "startall=0", "resetall=0", "stopall=0",
            "slaves=%d" % slaves]


def slave(node, keep=0, hb=0, sets=0):
    lines = ["node=%d" % node, "mandatory=1", "keep=%d" % keep, "type=402", "vendor=0", "product=0", "revision=0",
             "serial=0", "hb=%d" % hb, "sets=%d" % sets]
    for i in range(sets):
        lines += ["index=%d" % (4096 + i), "sub=0", "size=%d" % (i % 4 + 1), "value=%d" % (256 ** (i % 4 + 1) - 1)]
    return lines


def bench():
    """Four slaves, two keep-alive, seven sets: 8 + 4 * 10 + 7 * 4 = 76 lines."""
    return header(4) + slave(5, sets=2) + slave(9, 1, 200, 1) + slave(20, sets=4) + slave(64, 1, 65535)


def full(sets, own=127):
    """126 slaves; sets is how many each has."""
    lines = header(126, own)
    for i in range(126):
        lines += slave(i + 1, sets=sets(i))
    return lines


def joined(lines):
    return "".join(line + "\n" for line in lines).encode()


def edited(lines, at, new):
    """The text with another line at `at`, from 1."""
    return joined(lines[:at - 1] + [new] + lines[at:])


def cases():
    b = bench()
    whole = full(lambda i: 32 if i < 8 else 0)
    end = len(whole)  # 8 + 126 * 10 + 256 * 4: no sheet has more lines
    index, sub, size, value = range(19, 23)  # the lines of the first set
    yield "bench", joined(b)
    yield "no-slaves", joined(header(0))
    yield "slaves-126", joined(full(lambda i: 0))
    yield "sets-256", joined(whole)
    yield "own-127-node-126", joined(header(1, 127) + slave(126))
    yield "node-127", joined(header(1, 126) + slave(127))
    # refusal 1: the first line, others, the last one
    yield "digits-first-empty", edited(b, 1, "own=")
    yield "digits-first-letter", edited(b, 1, "own=1a")
    yield "digits-leading-zero", edited(b, 2, "wait=0100")
    yield "digits-double-zero", edited(b, 3, "boottime=00")
    yield "digits-zero-alone", edited(b, 3, "boottime=0")
    yield "digits-largest", edited(b, 3, "boottime=4294967295")
    yield "digits-one-above", edited(b, 3, "boottime=4294967296")
    yield "digits-eleven", edited(b, 3, "boottime=10000000000")
    yield "digits-sign", edited(b, 4, "inhibit=+5")
    yield "digits-minus", edited(b, 4, "inhibit=-5")
    yield "digits-blank", edited(b, 4, "inhibit= 5")
    yield "digits-second-equals", edited(b, 4, "inhibit=5=6")
    yield "digits-carriage-return", edited(b, 4, "inhibit=5\r")
    yield "digits-zero-byte", edited(b, 4, "inhibit=5\0")
    yield "digits-middle", edited(b, sub, "sub=x")
    yield "digits-last", edited(whole, end, "sets=")
    yield "digits-long", edited(b, 3, "boottime=" + "9" * 4000)
    # refusal 2: the first line, others, the last one
    yield "line-empty-text", b""
    yield "line-no-end-first", b"own=1"
    yield "line-no-end-bad-number", b"own=00"
    yield "line-other-key-first", edited(b, 1, "Own=1")
    yield "line-order", joined(["wait=100", "own=1"] + b[2:])
    yield "line-no-equals", edited(b, 3, "boottime 0")
    yield "line-blank", edited(b, 4, "")
    yield "line-key-space", edited(b, 4, "inhibit =0")
    yield "line-other-key-bad-number", edited(b, 5, "start=007")
    yield "line-missing-slave", joined(b[:8])
    yield "line-missing-sets", joined(b[:-1])
    yield "line-no-end-last", joined(whole)[:-1]
    yield "line-crlf", "".join(line + "\r\n" for line in b).encode()
    # refusal 3: the first line, both ends of ranges, the last one
    yield "range-own-0", edited(b, 1, "own=0")
    yield "range-own-128", edited(b, 1, "own=128")
    yield "range-wait-0", edited(b, 2, "wait=0")
    yield "range-wait-60000", edited(b, 2, "wait=60000")
    yield "range-wait-60001", edited(b, 2, "wait=60001")
    yield "range-inhibit-65536", edited(b, 4, "inhibit=65536")
    yield "range-stopall-2", edited(b, 7, "stopall=2")
    yield "range-slaves-127", edited(b, 8, "slaves=127")
    yield "range-node-0", edited(b, 9, "node=0")
    yield "range-node-128", edited(b, 9, "node=128")
    yield "range-index-65536", edited(b, index, "index=65536")
    yield "range-size-0", edited(b, size, "size=0")
    yield "range-size-5", edited(b, size, "size=5")
    yield "range-value-256", edited(b, value, "value=256")
    yield "range-value-65536", edited(b, value + 4, "value=65536")
    yield "range-sets-33-last", edited(whole, end, "sets=33")
    # refusal 4: the first slave, another, the last one
    yield "order-own-first", edited(b, 9, "node=1")
    yield "order-equal-middle", edited(b, 27, "node=5")
    yield "order-falling-middle", edited(b, 27, "node=2")
    yield "order-last", edited(whole, end - 9, "node=125")
    yield "order-own-last", joined(full(lambda i: 0, own=126)[:-10] + slave(126))
    # refusal 5: the first slave, another, the last one
    yield "silent-first", joined(header(2) + slave(5, 1, 0) + slave(6))
    yield "silent-middle", edited(b, 35, "hb=0")
    yield "silent-range-first", edited(b, 35, "hb=65536")
    yield "silent-last", joined(whole[:-10] + slave(126, 1, 0))
    # refusal 6: the first slave it can be, another, the last one
    yield "sets-257-first", joined(full(lambda i: 32 if i < 8 else 1 if i == 8 else 0))
    yield "sets-257-middle", joined(full(lambda i: 4 if i < 64 else 1 if i == 70 else 0))
    yield "sets-257-last", edited(whole, end, "sets=1")
    yield "sets-33-before-257", joined(full(lambda i: 32 if i < 8 else 33 if i == 8 else 0))
    # refusal 7: after the shortest sheet, after others, after the longest
    yield "after-shortest", joined(header(0)) + b"\n"
    yield "after-one-byte", joined(b) + b"x"
    yield "after-slave-too-many", joined(b + slave(70))
    yield "after-longest", joined(whole) + b"own=1\n"


def main():
    folder = os.path.join(sys.argv[1], "data")
    os.makedirs(folder, exist_ok=True)
    names, lines = [], []
    for name, text in cases():
        with open(os.path.join(folder, name + ".txt"), "wb") as f:
            f.write(text)
        names.append(name)
        try:
            said = "right slaves=%d sets=%d rewritten=%d" % (*judge(text), len(text))
        except Refused as r:
            said = "refused=%d line=%d layer=%s\n%26s line %d: %s (refusal %d)" % (r.number, r.line, r.layer, "", r.line, r.why, r.number)
        lines.append("%-26s %s" % (name, said))
    with open(os.path.join(folder, "cases"), "w") as f:
        f.write("".join(name + "\n" for name in names))
    with open(os.path.join(sys.argv[1], "stdout"), "w") as f:
        f.write("".join(line + "\n" for line in lines))


main()
