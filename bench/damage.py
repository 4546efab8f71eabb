#!/usr/bin/env python3
"""Feeds built programs damaged sheets, sessions and logs, and checks that they hold up.

    damage.py PROGRAM [--baseline PROGRAM] [--replay PROGRAM] [--sheetcheck PROGRAM] [--count N] [--seed S]

PROGRAM and the baseline take SHEET SESSION, replay takes SHEET LOG, sheetcheck takes SHEET. Whatever the files hold, a
program has to end by itself with status 0 and a whole report; a file that cannot be read is status 1 with a message.
"""
import argparse
import os
import random
import re
import shutil
import sys
import tempfile
import time
from collections import Counter

from generate import EMPTY_SHEET, PROFILES, Pair, log_text, sheet_text
from running import Runner, limit_memory

LINE = re.compile(rb"(?:refused=[0-9]+|out=none|out=[0-9]+(?:,[0-9]+){0,8})\n")
END = re.compile(rb"go=[01]\nhalted=[01]\n(?:slave=[0-9]+,(?:none|OK|[A-Z])\n){0,126}")
COUNTED = re.compile(rb"(work|take|tick)=([0-9]+)")
STAMP = re.compile(rb"\(([0-9]+)\.([0-9]+)\)")
NUMBER = re.compile(rb"[0-9]+")
LIMITS = (b"0", b"00", b"007", b"1", b"255", b"256", b"2047", b"2048", b"65535", b"65536", b"4294967295", b"4294967296",
          b"4294967297", b"18446744073709551615", b"18446744073709551616", b"-1", b"+1", b"", b"1e3", b"0x10", b"9" * 400)
MOST_CALLS = {b"work": 3000, b"take": 3000, b"tick": 20000}  # of a session in the bulk runs
MOST_JUMP = 2000  # seconds that a log may jump ahead in the bulk runs
ONLY_TIMED = ("all ticks", "time jump")
WORST = 5  # of each kind of trouble, so many are shown


# Damage: each takes the random numbers and the bytes, and gives other bytes.

def as_lines(data):
    return data.split(b"\n")


def cut(rng, data):
    return data[:rng.randrange(len(data) + 1)]


def behead(rng, data):
    return data[rng.randrange(len(data) + 1):]


def flip(rng, data):
    damaged = bytearray(data)
    for _ in range(rng.choice((1, 1, 1, 2, 8)) if data else 0):
        damaged[rng.randrange(len(damaged))] ^= 1 << rng.randrange(8)
    return bytes(damaged)


def swap(rng, data):
    lines = as_lines(data)
    for _ in range(rng.choice((1, 1, 3))):
        i, j = rng.randrange(len(lines)), rng.randrange(len(lines))
        lines[i], lines[j] = lines[j], lines[i]
    return b"\n".join(lines)


def double(rng, data):
    lines = as_lines(data)
    at = rng.randrange(len(lines))
    lines[at:at] = [lines[at]] * rng.choice((1, 1, 2, 50))
    return b"\n".join(lines)


def drop(rng, data):
    lines = as_lines(data)
    del lines[rng.randrange(len(lines))]
    return b"\n".join(lines)


def lengthen(rng, data):
    lines = as_lines(data)
    at = rng.randrange(len(lines))
    filling = rng.choice((b"0", b"1", b",1", b"=", b"x", b" ", b"\0", b"heard=")) * rng.choice((100, 5000, 100000))
    lines[at] = rng.choice((lines[at] + filling, filling + lines[at], filling))
    return b"\n".join(lines)


def nul(rng, data):
    for _ in range(rng.choice((1, 3))):
        at = rng.randrange(len(data) + 1)
        data = data[:at] + b"\0" * rng.choice((1, 1, 100)) + data[at + rng.randrange(2):]
    return data


def limits(rng, data):
    places = list(NUMBER.finditer(data))
    for place in sorted(rng.sample(places, min(len(places), rng.choice((1, 1, 1, 3)))), key=lambda p: -p.start()):
        new = rng.choice(LIMITS) if rng.random() < 0.7 else b"0" + place.group()
        data = data[:place.start()] + new + data[place.end():]
    return data


def nudge(rng, data):
    """Numbers that are only a little wrong."""
    places = list(NUMBER.finditer(data))
    for place in sorted(rng.sample(places, min(len(places), rng.choice((1, 2)))), key=lambda p: -p.start()):
        new = b"%d" % max(0, int(place.group()[:20]) + rng.choice((-1, 1, 2, 100)))
        data = data[:place.start()] + new + data[place.end():]
    return data


def empty(_rng, _data):
    return b""


def no_end(_rng, data):
    return data.rstrip(b"\n")


def returns(rng, data):
    return data.replace(b"\n", rng.choice((b"\r\n", b"\r", b"\n\r", b"\n\n")), rng.choice((1, -1)))


def scatter(rng, data):
    for _ in range(rng.choice((1, 3, 20))):
        at = rng.randrange(len(data) + 1)
        data = data[:at] + rng.randbytes(rng.choice((1, 4, 50))) + data[at + rng.choice((0, 1, 4)):]
    return data


def garbage(rng, _data):
    return rng.randbytes(rng.choice((1, 10, 1000, 20000)))


def extra(rng, data):
    return data + rng.choice((b"\n", b"\0", b" ", b"own=1\n", b"x", b"\xff", data))


def break_rule(rng, data):
    """A sheet whose lines are all in order but for one rule; anything else gets flipped bits."""
    own = re.match(rb"own=([0-9]+)\n", data)
    if not own:
        return flip(rng, data)
    way = rng.randrange(6)
    if way == 0:
        return re.sub(rb"(?m)^node=[0-9]+$", b"node=" + own[1], data, count=1)
    if way == 1:
        return re.sub(rb"(?m)^node=[0-9]+$", b"node=%d" % rng.choice((0, 1, 64, 127, 128)), data)
    if way == 2:
        return re.sub(rb"(?m)^hb=[0-9]+$", b"hb=0", re.sub(rb"(?m)^keep=0$", b"keep=1", data))
    if way == 3:
        return re.sub(rb"(?m)^size=[0-9]+$", b"size=%d" % rng.choice((0, 1, 2, 5)), data)
    if way == 4:
        return re.sub(rb"(?m)^sets=[0-9]+$", lambda match: b"sets=%d" % rng.choice((0, 1, 33)), data)
    # Eight slaves of 32 sets are allowed, and nothing more.
    sheet = dict(EMPTY_SHEET, own=127)
    sheet["slaves"] = [
        {"node": node, "mandatory": 0, "keep": 0, "type": 0, "vendor": 0, "product": 0, "revision": 0, "serial": 0, "hb": 0,
         "sets": [{"index": 8192, "sub": k, "size": 1, "value": k} for k in range(32 if node < 9 else rng.randrange(3))]}
        for node in range(1, rng.choice((8, 9, 10, 11)))]
    return sheet_text(sheet).encode()


def several(rng, data):
    for _ in range(rng.randint(2, 5)):
        data = rng.choice(SINGLE)(rng, data)
    return data


SINGLE = (cut, behead, flip, swap, double, drop, lengthen, nul, limits, nudge, empty, no_end, returns, scatter, garbage, extra,
          break_rule)
KINDS = {
    "undamaged": lambda _rng, data: data,
    "cut short": cut, "front cut off": behead, "bits flipped": flip, "lines swapped": swap, "lines doubled": double,
    "lines dropped": drop, "long lines": lengthen, "NUL bytes": nul, "numbers at limits": limits, "numbers nudged": nudge,
    "empty": empty, "no line end": no_end, "other line ends": returns, "bytes scattered": scatter, "random bytes": garbage,
    "bytes after the end": extra, "rules broken": break_rule, "several": several,
}


def bounded_session(data):
    """Lowers counts that would only take time; numbers too large to be counts stay, for they make no call."""
    left = dict(MOST_CALLS)
    lines = as_lines(data)
    for at, line in enumerate(lines):
        match = COUNTED.fullmatch(line)
        if not match or len(match[2]) > 10 or int(match[2]) > 4294967295:
            continue
        key, count = match[1], int(match[2])
        if count > left[key]:
            count = min(3, left[key])
            lines[at] = b"%s=%d" % (key, count)
        left[key] -= count
    return b"\n".join(lines)


def bounded_log(data):
    """Spoils time stamps that jump far ahead, for each of their milliseconds is a tick."""
    lines = as_lines(data)
    first = None
    for at, line in enumerate(lines):
        match = STAMP.match(line)
        if match:
            seconds = int(match[1][:30])
            first = seconds if first is None else first
            if seconds > first + MOST_JUMP or seconds < first - MOST_JUMP:
                lines[at] = b"[" + line[1:]
    return b"\n".join(lines)


def odd_frames(rng, log):
    """Lines that a recording can have and the starter has no use for."""
    lines = as_lines(log)
    for _ in range(rng.randint(1, 3)):
        at = rng.randrange(len(lines))
        stamp = lines[at].split(b" ")[0] or b"(1436509052.000000)"
        lines.insert(at, stamp + b" " + rng.choice((
            b"can0 12345678#00", b"can0 705#R", b"can0 705##100", b"can1 705#00", b"can0 20000080#0000000000000000",
            b"can0 705#", b"can0 705#0", b"can0 705#000000000000000000", b"can0 FFF#00", b"vcan0 705#7F", b"can0 705#7f",
            b"can0 705#0G", b"can0 #00", b"can0 705", b"can0", b"", b"can0 705#00 R", b"can0 7FF#0011223344556677")))
    return b"\n".join(lines)


# Checks

class Bench:
    def __init__(self, args, scratch):
        self.args = args
        self.runner = Runner(scratch)
        self.scratch = scratch
        self.runs = Counter()
        self.trouble = Counter()
        self.slowest = (0.0, "no run")
        self.peak = (0, "no run")
        self.statuses = Counter()
        self.sheets = Counter()

    def path(self, name):
        return os.path.join(self.scratch, name)

    def write(self, name, data):
        with open(self.path(name), "wb") as file:
            file.write(data)
        return self.path(name)

    def run(self, what, argv, limit=None):
        run = self.runner.run(argv, limit or self.args.limit)
        self.runs[what] += 1
        name = os.path.basename(argv[0])
        if what not in ONLY_TIMED and run.seconds > self.slowest[0]:
            self.slowest = (run.seconds, f"{name}, {what}")
        if run.peak > self.peak[0]:
            self.peak = (run.peak, f"{name}, {what}")
        self.statuses[f"{name} status {run.status}"] += 1
        return run

    def keep(self, trouble, what, argv, runs):
        self.trouble[trouble] += 1
        number = self.trouble[trouble]
        if number > 100:
            return
        folder = os.path.join(self.args.keep, f"{trouble}-{self.args.seed}-{number:04}")
        shutil.rmtree(folder, ignore_errors=True)
        os.makedirs(folder)
        for path in argv[1:]:
            if os.path.isfile(path) and os.path.getsize(path) < 1 << 24:
                shutil.copy(path, folder)
        with open(os.path.join(folder, "about"), "w") as about:
            print(what, *argv, sep="\n", file=about)
        for program, run in runs:
            base = os.path.join(folder, os.path.basename(program))
            with open(base + ".stdout", "wb") as file:
                file.write(run.out)
            with open(base + ".stderr", "wb") as file:
                file.write(run.err + b"status %d\n" % run.status)
        if number <= WORST:
            print(f"{trouble}: {what}, {os.path.basename(argv[0])}; kept in {folder}")

    def judge(self, what, argv, run, good):
        """Counts a run that did not hold up; says whether it did."""
        if run.late:
            self.keep("time-out", what, argv, [(argv[0], run)])
        elif not good(run):
            self.keep("crash", what, argv, [(argv[0], run)])
        else:
            return True
        return False

    def pair(self, what, sheet, session, good, limit=None):
        """Runs the program, and the baseline beside it."""
        argv = [self.args.program, sheet, session]
        run = self.run(what, argv, limit)
        held = self.judge(what, argv, run, good)
        if self.args.baseline:
            other = [self.args.baseline, sheet, session]
            second = self.run(what, other, limit)
            if self.judge(what, other, second, good) and held and (run.out, run.status) != (second.out, second.status):
                self.keep("difference", what, argv, [(argv[0], run), (other[0] + ".baseline", second)])
        return run

    def check_sheet(self, what, sheet, report=None, limit=None):
        """Runs the sheet checker; it must find the same fault as the program did."""
        if not self.args.sheetcheck:
            return
        argv = [self.args.sheetcheck, sheet]
        run = self.run(what, argv, limit)
        if not self.judge(what, argv, run, lambda r: r.status == 0 and r.out) or report is None:
            return
        said = re.search(rb"^refused=([0-9]+)", run.out, re.M)
        wanted = re.match(rb"refused=([1-7])\n", report)
        if (said and said[1]) != (wanted and wanted[1]):
            self.keep("difference", what, argv, [(argv[0], run)])

    def replay(self, what, sheet, log, limit=None):
        if self.args.replay:
            argv = [self.args.replay, sheet, log]
            self.judge(what, argv, self.run(what, argv, limit), ended)


def whole(run):
    """Status 0, and nothing but lines of a report, with go and halted at its end."""
    if run.status != 0:
        return False
    place = 0
    for line in LINE.finditer(run.out):
        if line.start() != place:
            return False
        place = line.end()
    return END.fullmatch(run.out, place) is not None


def declined(run):
    return run.status == 1 and len(run.err) > 0


def ended(run):
    return (run.status == 0 and len(run.out) > 0) or declined(run)


def bulk(bench):
    args = bench.args
    kinds = list(KINDS)
    for number in range(args.count):
        rng = random.Random(f"{args.seed}/{number}")
        pair = Pair(rng, PROFILES[number % len(PROFILES)], steps=rng.choice((5, 20, 60)))
        # A damaged sheet is mostly refused and the session then runs on the empty one, so most damage goes to sessions.
        kind, target = kinds[number % len(kinds)], rng.choice(("sheet", "session", "session", "both"))
        if kind == "rules broken":
            target = "sheet"
        sheet, session = pair.sheet_text, pair.session_text
        if target != "session":
            sheet = KINDS[kind](rng, sheet)
        if target != "sheet":
            session = KINDS[kind](rng, session)
        what = kind
        sheet_path = bench.write("sheet.txt", sheet)
        run = bench.pair(what, sheet_path, bench.write("session.txt", bounded_session(session)), whole)
        bench.check_sheet(what, sheet_path, run.out)
        refused = re.match(rb"refused=([1-7])\n", run.out)
        bench.sheets[f"refused with {refused[1].decode()}" if refused else "read"] += 1
        if args.replay:
            log = log_text(rng, pair.model.trace, rng.random() < 0.5)
            if rng.random() < 0.2:
                log = odd_frames(rng, log)
            if target != "sheet":
                log = KINDS[kind](rng, log)
            bench.replay(what, sheet_path, bench.write("session.log", bounded_log(log)))
        if (number + 1) % 1000 == 0:
            print(f"... {number + 1} of {args.count}", flush=True)


def fill(path, head, filling, size):
    with open(path, "wb") as file:
        file.write(head)
        chunk = filling * (1 << 16)
        left = size
        while left > 0:
            left -= file.write(chunk[:left])
    return path


def special(bench):
    """The few cases that are large or have no files."""
    args = bench.args
    hundred = args.large << 20
    limit = args.special_limit
    sheet = bench.write("sheet.txt", sheet_text(EMPTY_SHEET).encode())
    session = bench.write("session.txt", b"work=1\ntake=1\n")
    log = bench.write("session.log", b"(1436509052.249713) can0 705#00\n")

    def timed(name, run):
        print(f"  {name:<44} {run.seconds:8.2f} s {run.peak / 1024:8.0f} MiB{'  (time limit)' if run.late else ''}", flush=True)

    print(f"large and missing files ({args.large} MiB; seconds and peak memory of the program):")
    large = bench.path("large")
    for head, filling in ((b"", b"x"), (b"own=", b"1"), (b"own=1\nwait=", b"0"), (b"", b"\n"), (b"", b"\0")):
        fill(large, head, filling, hundred)
        name = f"{(head + filling)!r} on and on"
        timed(f"sheet {name}", bench.pair("large sheet", large, session, whole, limit))
        bench.check_sheet("large sheet", large, limit=limit)
    for head, filling in ((b"", b"x"), (b"heard=1797", b",0"), (b"work=", b"1"), (b"", b"\n"), (b"", b"\0")):
        fill(large, head, filling, hundred)
        timed(f"session {(head + filling)!r} on and on", bench.pair("large session", sheet, large, whole, limit))
        if args.replay:
            bench.replay("large log", sheet, large, limit)

    rng = random.Random(args.seed)
    pair = Pair(rng, "crowd")
    pair_sheet = bench.write("crowd.txt", pair.sheet_text)
    # Written line by line, for what the driver holds shows up as memory of the programs that it starts.
    with open(bench.path("million.txt"), "wb") as file:
        for _ in range(1000000):
            sign = b"heard=%d,%d" % (0x700 + rng.randrange(128), rng.choice((0, 5, 127)))
            file.write(rng.choice((b"tick=1", b"work=1", b"take=1", sign)) + b"\n")
    timed("session of a million lines", bench.pair("million lines", pair_sheet, bench.path("million.txt"), whole, limit))
    if args.replay:
        with open(bench.path("million.log"), "wb") as file:
            for i in range(1000000):
                seconds, micros = divmod(1436509052000000 + 137 * i, 1000000)
                file.write(b"(%d.%06d) can0 %03X#%02X\n" % (seconds, micros, 0x700 + i % 128, (0, 5, 127)[i % 3]))
        bench.replay("million lines", pair_sheet, bench.path("million.log"), limit)

    missing, folder = bench.path("missing"), bench.scratch
    for first, second in ((missing, session), (sheet, missing), (folder, session), (sheet, folder), (missing, missing)):
        bench.pair("unreadable files", first, second, declined)
    if args.replay:
        bench.replay("unreadable files", sheet, missing)
        bench.replay("unreadable files", missing, log)

    # Only timed: being late is no fault here.
    print(f"only timed, ended after {args.tick_limit:.0f} s:")
    path = bench.write("ticks.txt", b"tick=4294967295\n")
    for program in filter(None, (args.program, args.baseline)):
        run = bench.run("all ticks", [program, sheet, path], args.tick_limit)
        timed(f"{os.path.basename(program)}: tick=4294967295, empty sheet", run)
        if not run.late and not whole(run):
            bench.keep("crash", "all ticks", [program, sheet, path], [(program, run)])
    if args.replay:
        jump = bench.write("jump.log", b"(1436509052.249713) can0 705#00\n(9999999999.999999) can0 705#00\n(0.000000) can0 705#05\n")
        run = bench.run("time jump", [args.replay, sheet, jump], args.tick_limit)
        timed("log that jumps ahead by centuries", run)
        if not run.late and not ended(run):
            bench.keep("crash", "time jump", [args.replay, sheet, jump], [(args.replay, run)])


def main():
    here = os.path.dirname(os.path.abspath(__file__))
    parser = argparse.ArgumentParser(description=__doc__, formatter_class=argparse.RawDescriptionHelpFormatter)
    parser.add_argument("program", help="takes SHEET SESSION")
    parser.add_argument("--baseline", help="takes SHEET SESSION; must print the same")
    parser.add_argument("--replay", help="takes SHEET LOG, a candump -L log")
    parser.add_argument("--sheetcheck", help="takes SHEET")
    parser.add_argument("--count", type=int, default=10000)
    parser.add_argument("--seed", type=int, default=1)
    parser.add_argument("--limit", type=float, default=10, help="seconds for a run")
    parser.add_argument("--special-limit", type=float, default=60, help="seconds for a run on large files")
    parser.add_argument("--tick-limit", type=float, default=120, help="seconds for the runs that are only timed")
    parser.add_argument("--memory", type=int, default=1024, help="MiB of address space")
    parser.add_argument("--large", type=int, default=100, help="MiB of the large files")
    parser.add_argument("--no-special", action="store_true", help="leave the large files out")
    parser.add_argument("--keep", default=os.path.join(here, "found"), help="where trouble is kept")
    args = parser.parse_args()
    for name in ("program", "baseline", "replay", "sheetcheck"):
        path = getattr(args, name)
        if path:
            setattr(args, name, os.path.abspath(path))
            if not os.access(path, os.X_OK):
                parser.error(f"{path} cannot be run")
    limit_memory(args.memory << 20)
    begin = time.monotonic()
    with tempfile.TemporaryDirectory(dir="/dev/shm" if os.path.isdir("/dev/shm") else None) as scratch:
        bench = Bench(args, scratch)
        own = bench.runner.run(["/bin/true"], 10).peak if os.path.exists("/bin/true") else 0
        bulk(bench)
        bulk_peak = bench.peak
        if not args.no_special:
            special(bench)
    print("runs by kind:")
    for kind, count in bench.runs.items():
        print(f"  {kind:<22} {count:>8}")
    print("sheets: " + ", ".join(f"{count} {fate}" for fate, count in sorted(bench.sheets.items())))
    for status, count in sorted(bench.statuses.items()):
        print(f"{status}: {count}")
    print(f"slowest run {bench.slowest[0]:.3f} s ({bench.slowest[1]})")
    print(f"largest peak memory {bench.peak[0] / 1024:.1f} MiB ({bench.peak[1]}); "
          f"in the bulk runs {bulk_peak[0] / 1024:.1f} MiB, of which a program that does nothing shows {own / 1024:.1f}")
    print(f"{time.monotonic() - begin:.0f} s in all")
    trouble = [bench.trouble[kind] for kind in ("crash", "time-out", "difference")]
    print(f"{sum(bench.runs.values())} runs, {trouble[0]} crashes, {trouble[1]} time-outs, {trouble[2]} differences")
    return 1 if any(trouble) else 0


if __name__ == "__main__":
    sys.exit(main())
