"""Random sheets and sessions that are valid and go somewhere.

A session is written while a model of the master runs along, so that answers fit the open request, heartbeats come just in
time or just too late, and ticks end on the tick that matters. The model also counts what happened and says what the
program is to print, but it is only a guide: what a program prints is compared with another program.
"""
from collections import Counter

OPERATIONAL = 5
STATES = (4, 5, 127)
IDENTITY = ("vendor", "product", "revision", "serial")
HEADER = ("own", "wait", "boottime", "inhibit", "startall", "resetall", "stopall")
SLAVE = ("node", "mandatory", "keep", "type", *IDENTITY, "hb")
SET = ("index", "sub", "size", "value")
PROFILES = ("plain", "keep", "loss", "boottime", "full", "loss", "gap", "fail", "keep", "noise", "loss", "crowd")


# Sheets

def random_value(rng):
    return rng.choice((1, 77, 255, 256, 402, 65535, 65536, 16777215, 16777216, 4294967295, rng.randrange(1, 1 << 32)))


def random_set(rng):
    size = rng.randint(1, 4)
    top = 256**size - 1
    value = rng.choice((0, 1, top, rng.randint(0, top)))
    index = rng.choice((0, 0x1000, 0x1017, 0x1018, 0x2100, 65535, rng.randint(0, 65535)))
    return {"index": index, "sub": rng.choice((0, 1, 2, 255)), "size": size, "value": value}


def random_sheet(rng, profile):
    own = rng.choice((1, 1, 3, 127, rng.randint(1, 127)))
    counts = {"crowd": (8, 30), "full": (1, 8), "keep": (1, 5)}.get(profile, (0, 4))
    count = rng.randint(*counts)
    if profile == "crowd" and rng.random() < 0.05:
        count = 126
    if profile in ("loss", "boottime"):
        count = max(count, 1)
    nodes = sorted(rng.sample([n for n in range(1, 128) if n != own], count))
    if profile == "full" and rng.random() < 0.5:
        nodes[-1] = 126 if own == 127 else 127
    keep = {"keep": 0.8, "full": 0.5, "loss": 0.4, "crowd": 0.1}.get(profile, 0.2)
    mandatory = {"fail": 0.3, "loss": 0.8, "boottime": 0.9}.get(profile, 0.5)
    beats = {"loss": 0.9, "keep": 0.9, "boottime": 0.3}.get(profile, 0.6)
    identity = {"fail": 0.5, "plain": 0.3}.get(profile, 0.15)
    sheet = {
        "own": own,
        "wait": rng.choice((1, 2, 5, 20, 100, 1000)),
        "boottime": rng.choice((1, 5, 50, 500, 1500, 3000)) if profile == "boottime" else rng.choice((0, 0, 2000, 4294967295)),
        "inhibit": rng.choice((1, 11, 25, 100, 2000)) if profile == "gap" else rng.choice((0, 0, 0, 10)),
        "startall": int(rng.random() < 0.5),
        "resetall": int(rng.random() < (0.6 if profile == "loss" else 0.3)),
        "stopall": int(rng.random() < (0.4 if profile == "loss" else 0.2)),
        "slaves": [],
    }
    sets_left = 256
    for node in nodes:
        hb = rng.choice((1, 3, 10, 30, 50, 300)) if rng.random() < beats else 0
        slave = {"node": node, "mandatory": int(rng.random() < mandatory), "keep": int(hb > 0 and rng.random() < keep)}
        slave["type"] = random_value(rng) if rng.random() < 0.5 else 0
        for key in IDENTITY:
            slave[key] = random_value(rng) if rng.random() < identity else 0
        slave["hb"] = hb
        many = rng.choice((0, 0, 1, 1, 2, 3, 32 if rng.random() < 0.05 else 1))
        slave["sets"] = [random_set(rng) for _ in range(min(many, sets_left))]
        sets_left -= len(slave["sets"])
        sheet["slaves"].append(slave)
    return sheet


def sheet_text(sheet):
    lines = [f"{key}={sheet[key]}" for key in HEADER]
    lines.append(f"slaves={len(sheet['slaves'])}")
    for slave in sheet["slaves"]:
        lines += [f"{key}={slave[key]}" for key in SLAVE]
        lines.append(f"sets={len(slave['sets'])}")
        for item in slave["sets"]:
            lines += [f"{key}={item[key]}" for key in SET]
    return "".join(line + "\n" for line in lines)


EMPTY_SHEET = {"own": 1, "wait": 1000, "boottime": 0, "inhibit": 0, "startall": 0, "resetall": 0, "stopall": 0, "slaves": []}


# The model

class Entry:
    def __init__(self, slave):
        self.slave = slave
        self.stage = "ask" if slave["keep"] else "boot"
        self.query = ("read", 0x1000, 0)  # what is asked, in the stages ask and asked
        self.left = None  # ticks until the stage's wait runs out
        self.running = self.started = False
        self.last = "silence"
        self.booted = self.seen = False
        self.result = "none"

    def enter(self, stage, left=None):
        self.stage, self.left = stage, left

    def ask(self, query=("read", 0x1000, 0)):
        self.query = query
        self.enter("ask")

    def reset(self):
        self.enter("boot", 1000)
        self.last, self.booted, self.result = "reset", False, "none"

    def spared(self):
        return self.slave["keep"] == 1 and self.last in ("silence", OPERATIONAL)

    def cleared(self):
        return self.stage == "passed" if self.slave["mandatory"] else self.seen

    def owed(self):
        return self.stage == "passed" and not self.running and not self.started


class Model:
    def __init__(self, sheet):
        self.sheet = sheet
        self.entries = [Entry(slave) for slave in sheet["slaves"]]
        self.by_node = {entry.slave["node"]: entry for entry in self.entries}
        self.waiting = []
        self.gap = -(-sheet["inhibit"] // 10)
        self.pause = 0
        self.sweep = (0x82, None)  # command, and the last node come to
        self.served = 0
        self.any_start = False
        self.ticks = 0
        self.condition = "running"
        self.out = []
        self.events = Counter()
        self.trace = []  # what a listener on the cable would have seen, for logs

    def go(self):
        return all(entry.cleared() for entry in self.entries)

    def refuse(self, number):
        self.out.append(f"refused={number}")

    def take(self):
        if not self.waiting:
            self.out.append("out=none")
            return
        frame = self.waiting[0]
        if frame[0] == 0:
            if self.pause > 0:
                self.events["held by the gap"] += 1
                self.out.append("out=none")
                return
            self.pause = self.gap
        self.waiting.pop(0)
        self.trace.append(("sent", frame[0], frame[1:]))
        self.out.append("out=" + ",".join(map(str, frame)))

    # Ticks

    def tick(self, count):
        self.trace.append(("tick", count))
        while count > 0:
            step = 1
            if self.condition == "running":
                waits = [entry.left for entry in self.entries if entry.left is not None]
                step = min([count] + [left - 1 for left in waits])
                if step == 0:
                    step = 1
                    self.one_tick()
                else:
                    self.ticks = min(self.ticks + step, 4294967295)
                    for entry in self.entries:
                        if entry.left is not None:
                            entry.left -= step
            else:
                step = count
            self.pause = max(0, self.pause - step)
            count -= step

    def one_tick(self):
        self.ticks = min(self.ticks + 1, 4294967295)
        for entry in self.entries:
            if entry.left is None:
                continue
            entry.left -= 1
            if entry.left == 0:
                self.run_out(entry)
                if self.condition != "running":
                    return

    def run_out(self, entry):
        if entry.stage in ("boot", "pausing"):
            self.events["boot-up not heard in time" if entry.stage == "boot" else "tries anew"] += 1
            entry.ask()
        elif entry.stage == "asked":
            self.fail(entry, self.letter(entry))
        elif entry.stage == "state":
            self.fail(entry, "E")
        elif entry.stage == "control":
            self.fail(entry, "K")
        else:
            self.lose(entry)

    def letter(self, entry):
        kind, index, sub = entry.query[:3]
        if kind == "write":
            return "J"
        return "B" if index == 0x1000 else " DMNO"[sub]

    def fail(self, entry, letter):
        entry.enter("pausing", 1000)
        entry.seen, entry.result = True, letter
        self.events[f"letter {letter}"] += 1
        if not entry.slave["mandatory"]:
            self.events["optional failure"] += 1
            return
        late = self.sheet["boottime"] != 0 and self.ticks > self.sheet["boottime"]
        if letter != "B" or late:
            self.events["halt by boottime" if letter == "B" else "halt by a letter"] += 1
            self.condition = "halted"

    def lose(self, entry):
        entry.enter("reset")
        entry.command = 0x81
        entry.last, entry.result = "loss", "E"
        if not entry.slave["mandatory"]:
            self.events["optional lost"] += 1
        elif self.sheet["stopall"]:
            self.events["lost, stopall"] += 1
            self.condition = "stop"
        elif self.sheet["resetall"]:
            self.events["lost, resetall"] += 1
            self.sweep = (0x81, None)
        else:
            self.events["mandatory lost"] += 1

    # Frames

    def heard(self, ident, data):
        self.trace.append(("heard", ident, data))
        if ident > 2047 or len(data) > 8:
            self.events["refused frame"] += 1
            self.refuse(11)
            return
        entry = self.by_node.get(ident & 127)
        if self.condition != "running" or entry is None:
            return
        if ident & ~127 == 0x700 and len(data) == 1 and data[0] in (0, *STATES):
            self.sign(entry, data[0])
        elif ident & ~127 == 0x580 and len(data) == 8 and entry.stage == "asked":
            self.answer(entry, data)

    def sign(self, entry, state):
        entry.last = state
        if state == 0:
            entry.booted, entry.result = True, "none"
            entry.ask()
        elif entry.stage == "state":
            if state == OPERATIONAL:
                entry.running = True
                entry.enter("control", entry.slave["hb"])
            else:
                self.reset_due(entry)
        elif entry.stage == "control":
            if entry.running and state != OPERATIONAL:
                self.reset_due(entry)
            else:
                self.passes(entry)
        elif entry.stage == "passed":
            entry.left = entry.slave["hb"] or None
        elif entry.stage == "reset" and state == OPERATIONAL and entry.slave["keep"]:
            self.events["due reset withdrawn"] += 1
            entry.ask()

    def reset_due(self, entry):
        self.events["reset due by a state"] += 1
        entry.enter("reset")
        entry.command = 0x82

    def answer(self, entry, data):
        kind, index, sub = entry.query[:3]
        if data[1] + 256 * data[2] != index or data[3] != sub:
            return
        if data[0] == 0x80:
            self.fail(entry, self.letter(entry))
        elif kind == "write" and data[0] == 0x60:
            self.events["set written"] += 1
            self.write_from(entry, entry.query[3] + 1)
        elif kind == "read" and data[0] in (0x4F, 0x4B, 0x47, 0x43):
            size = {0x4F: 1, 0x4B: 2, 0x47: 3, 0x43: 4}[data[0]]
            value = int.from_bytes(bytes(data[4:4 + size]), "little")
            wanted = self.wanted(entry)
            if wanted is not None and value != wanted:
                self.fail(entry, "C" if index == 0x1000 else self.letter(entry))
            else:
                self.read_from(entry, 1 if index == 0x1000 else sub + 1)

    def wanted(self, entry):
        """The value that the open read is to give; None if any will do."""
        index, sub = entry.query[1:3]
        if index == 0x1000:
            return entry.slave["type"] or None
        return entry.slave[IDENTITY[sub - 1]]

    def read_from(self, entry, sub):
        for sub in range(sub, 5):
            if entry.slave[IDENTITY[sub - 1]]:
                entry.ask(("read", 0x1018, sub))
                return
        if entry.slave["keep"] and not entry.booted:
            entry.enter("state", entry.slave["hb"])
        else:
            self.write_from(entry, 0)

    def write_from(self, entry, number):
        if number < len(entry.slave["sets"]):
            item = entry.slave["sets"][number]
            entry.ask(("write", item["index"], item["sub"], number))
            return
        entry.running = False
        if entry.slave["hb"]:
            entry.enter("control", entry.slave["hb"])
        else:
            self.passes(entry)

    def passes(self, entry):
        entry.enter("passed", entry.slave["hb"] or None)
        entry.seen, entry.started = True, False
        entry.result = "L" if entry.running else "OK"
        self.events["found running" if entry.running else "passed"] += 1

    # Work

    def work(self):
        if self.condition == "halted":
            self.events["work while halted"] += 1
            self.refuse(12)
            return
        job = self.job()
        if job is None:
            self.sweep = None
        elif len(self.waiting) == 64:
            self.events["full port"] += 1
            self.refuse(13)
        else:
            self.waiting.append(job())

    def job(self):
        """What is to be done next: a function that does it and gives the frame."""
        if self.condition == "stop":
            return self.stop
        if self.sweep is not None:
            command, place = self.sweep
            if place is None and not any(entry.spared() for entry in self.entries):
                return lambda: self.sweep_all(command)
            for node in range((place or 0) + 1, 128):
                entry = self.by_node.get(node)
                if node != self.sheet["own"] and not (entry and entry.spared()):
                    return lambda: self.sweep_node(command, node)
        turn = sorted(self.entries, key=lambda e: (e.slave["node"] <= self.served, e.slave["node"]))
        go = self.go()
        for entry in turn:
            if entry.stage in ("reset", "ask") or (go and entry.owed()):
                return lambda: self.serve(entry)
        return None

    def stop(self):
        self.condition = "halted"
        return (0, 2, 0)

    def sweep_all(self, command):
        self.events["sweep to all"] += 1
        self.sweep = None
        for entry in self.entries:
            entry.reset()
        return (0, command, 0)

    def sweep_node(self, command, node):
        if self.sweep[1] is None:
            self.events[f"single sweep {command:x}h"] += 1
        self.sweep = (command, node)
        if node in self.by_node:
            self.by_node[node].reset()
        return (0, command, node)

    def serve(self, entry):
        node = entry.slave["node"]
        self.sweep, self.served = None, node
        if entry.stage == "reset":
            self.events["due reset put"] += 1
            entry.reset()
            return (0, entry.command, node)
        if entry.stage == "ask":
            entry.enter("asked", self.sheet["wait"])
            index, sub = entry.query[1:3]
            if entry.query[0] == "read":
                return (0x600 + node, 0x40, index & 255, index >> 8, sub, 0, 0, 0, 0)
            item = entry.slave["sets"][entry.query[3]]
            first = {1: 0x2F, 2: 0x2B, 3: 0x27, 4: 0x23}[item["size"]]
            return (0x600 + node, first, index & 255, index >> 8, sub, *item["value"].to_bytes(4, "little"))
        to_all = self.sheet["startall"] and not self.any_start and all(e.stage == "passed" for e in self.entries)
        self.any_start = True
        self.events["start to all" if to_all else "single start"] += 1
        for other in self.entries if to_all else [entry]:
            other.started = True
        return (0, 1, 0 if to_all else node)

    def report(self):
        lines = [f"go={int(self.go())}", f"halted={int(self.condition == 'halted')}"]
        lines += [f"slave={entry.slave['node']},{entry.result}" for entry in self.entries]
        return "".join(line + "\n" for line in self.out + lines)


# Sessions

class Writer:
    """Writes a session while the model runs along."""

    def __init__(self, rng, sheet, profile):
        self.rng, self.sheet, self.profile = rng, sheet, profile
        self.model = Model(sheet)
        self.lines = []
        skills = (1, 0.99, 0.97) if profile in ("loss", "keep", "boottime") else (0.99, 0.97, 0.9, 0.7)
        self.skill = rng.choice(skills)  # how often a slave does what is wanted of it
        self.takes = {"full": 0.02, "gap": 0.7}.get(profile, 0.9)
        self.ticks_left = 12000

    def call(self, key, count):
        self.lines.append(f"{key}={count}")
        if key == "tick":
            self.ticks_left -= count
            self.model.tick(count)
            return
        for _ in range(count):
            self.model.work() if key == "work" else self.model.take()

    def heard(self, ident, *data):
        self.lines.append("heard=" + ",".join(map(str, (ident, *data))))
        self.model.heard(ident, data)

    def say(self, entry, state):
        self.heard(0x700 + entry.slave["node"], state)

    def work(self, count=1):
        self.call("work", count)
        if self.rng.random() < self.takes:
            self.call("take", count)

    def tick(self, count):
        if 0 < count <= self.ticks_left:
            self.call("tick", count)

    def beat_all(self):
        for entry in self.model.entries:
            if entry.stage == "passed" and entry.slave["hb"] and self.rng.random() < 0.98:
                running = entry.running or entry.started
                self.say(entry, OPERATIONAL if running or self.rng.random() < 0.3 else self.rng.choice(STATES))

    def pass_time(self):
        """Some ticks, often up to the tick at which a wait ends or the one before."""
        rng = self.rng
        waits = [entry.left for entry in self.model.entries if entry.left is not None]
        if self.profile in ("loss", "keep") and rng.random() < 0.3 and self.lose_one():
            if rng.random() < 0.5:
                # Another one is lost while the sweep that this may have begun is under way.
                self.work(rng.choice((1, 2, 20)))
                self.lose_one(surely=True)
            return
        if not waits or rng.random() < 0.1:
            self.tick(rng.choice((1, 2, 5, 50, 1000)))
            return
        beats = [e.left for e in self.model.entries if e.stage == "passed" and e.left is not None]
        if beats and rng.random() < (0.5 if self.profile == "loss" else 0.9):
            # Nobody is to be lost.
            self.beat_all()
            beats = [e.left for e in self.model.entries if e.stage == "passed" and e.left is not None]
            waits = [min(beats) - 1] if beats else waits
            self.tick(min(rng.choice((1, 3, 10, 300)), waits[0]))
            return
        left = min(waits) if rng.random() < 0.6 else rng.choice(waits)
        self.tick(left - rng.choice((0, 0, 1)))

    def lose_one(self, surely=False):
        """Time goes by and all but one slave send heartbeats."""
        passed = [e for e in self.model.entries if e.stage == "passed" and e.left is not None]
        others = any(e.stage != "passed" for e in self.model.entries)
        if not passed or (others and not surely and self.rng.random() < 0.7):
            return False
        lost = self.rng.choice(passed)
        while lost.left is not None and lost.stage == "passed" and self.ticks_left > 1000:
            for entry in passed:
                if entry is not lost and entry.left is not None:
                    self.say(entry, OPERATIONAL)
            others = [e.left - 1 for e in passed if e is not lost and e.left is not None]
            count = min([lost.left] + others)
            if count == 0:
                return False
            self.tick(count)
            if len(self.lines) > 3000:
                return True
        return True

    def fail_at_boottime(self, entry):
        """The first request is not answered, and its wait ends at the last tick that is allowed or the one after."""
        ahead = self.sheet["boottime"] - self.sheet["wait"] - self.model.ticks + self.rng.choice((0, 1))
        self.tick(ahead)
        self.work()
        if entry.stage == "asked":
            self.tick(entry.left)

    def fill_at_sweep_end(self):
        """The sweep has come to its last node and the port is full: a work is refused, and the sweep is not over."""
        model = self.model
        last = model.entries[-1] if model.entries else None
        if last is None or not last.spared() or model.sweep is None:
            return
        for _ in range(4):
            nodes = range((model.sweep[1] or 0) + 1, 128)
            to_come = [n for n in nodes if n != self.sheet["own"] and not (n in model.by_node and model.by_node[n].spared())]
            room = 64 - len(model.waiting)
            if len(to_come) > room and model.waiting and not model.gap:
                self.call("take", min(len(model.waiting), len(to_come) - room))
            count = min(len(to_come), 64 - len(model.waiting))
            if count == 0:
                break
            self.call("work", count)
        self.call("work", 1)
        self.say(last, self.rng.choice(STATES))
        self.call("take", 2)
        self.call("work", 1)
        self.call("take", 70)

    def right_answer(self, entry):
        rng = self.rng
        kind, index, sub = entry.query[:3]
        head = (index & 255, index >> 8, sub)
        if kind == "write":
            return (0x60, *head, 0, 0, 0, 0)
        value = self.model.wanted(entry)
        if value is None:
            value = rng.randrange(1 << rng.choice((8, 16, 24, 32)))
        sizes = [size for size in (1, 2, 3, 4) if value < 256**size]
        size = rng.choice(sizes)
        rest = [rng.choice((0, rng.randrange(256))) for _ in range(4 - size)]
        return ({1: 0x4F, 2: 0x4B, 3: 0x47, 4: 0x43}[size], *head, *value.to_bytes(size, "little"), *rest)

    def wrong_answer(self, entry):
        rng = self.rng
        answer = list(self.right_answer(entry))
        way = rng.randrange(7)
        if way == 0:
            answer[0] = 0x80
        elif way == 6:
            answer[4:] = [rng.randrange(256) for _ in range(4)]
        elif way == 1:
            answer[0] = rng.choice((0x42, 0x60, 0x43, 0x4F, 0x40, 0, rng.randrange(256)))
        elif way == 2:
            place = rng.randint(1, 3)
            answer[place] = (answer[place] + rng.choice((1, 255))) % 256
        elif way == 3:
            answer[rng.randint(4, 7)] ^= 1 << rng.randrange(8)
        elif way == 4:
            answer = answer[:rng.randrange(8)]
        else:
            answer.append(0)
        return answer

    def noise(self):
        rng = self.rng
        way = rng.randrange(8)
        if way == 0:
            self.heard(rng.choice((2048, 4294967295, rng.randrange(2048, 1 << 32))), 0)
        elif way == 1:
            self.heard(rng.randrange(2048), *[rng.randrange(256) for _ in range(rng.randint(9, 12))])
        elif way == 2:
            self.heard(rng.randrange(2048), *[rng.randrange(256) for _ in range(rng.randint(0, 8))])
        elif way == 3:
            self.heard(0x700 + rng.randrange(128), rng.choice((0, 4, 5, 127, 1, 6)))
        elif way == 4:
            self.heard(0x580 + rng.randrange(128), 67, 0, 16, 0, 146, 1, 0, 0)
        elif way == 5:
            self.lines.append(rng.choice((
                "", "bogus", "tick=x", "Work=1", "work", "work=", "take=01", " work=1", "work=1 ", "heard=", "heard=5,",
                "heard=1797,256", "heard=01797,0", "tick=4294967296", "work=99999999999", "heard=1797 ,0", "go=1", "=", "take=-1",
                "heard=1,,2", "heard=4294967296,0", "tick=1\r")))
        elif way == 6:
            self.call(rng.choice(("work", "take", "tick")), 0)
        else:
            self.call("take", rng.choice((1, 3)))

    def help(self, entry):
        """One thing that brings this slave on, or, with less skill, that does not."""
        rng = self.rng
        good = rng.random() < self.skill
        stage = entry.stage
        if stage == "boot":
            patient = self.profile == "boottime" or entry.slave["keep"]
            if patient and entry.left is not None and rng.random() < 0.3:
                self.tick(entry.left - rng.choice((0, 0, 1)))
            else:
                self.say(entry, 0 if good else rng.choice(STATES))
        elif stage in ("ask", "reset"):
            if stage == "reset" and rng.random() < 0.4:
                self.say(entry, rng.choice(STATES))
            elif stage == "ask" and self.profile == "boottime" and rng.random() < 0.4:
                self.fail_at_boottime(entry)
            else:
                self.work(rng.choice((1, 1, 1, 2, 3)))
        elif stage == "asked":
            forgets = self.profile == "boottime" and entry.query[1] == 0x1000 and rng.random() < 0.3
            if forgets:
                self.tick(entry.left)
            elif good:
                self.heard(0x580 + entry.slave["node"], *self.right_answer(entry))
            elif rng.random() < 0.6:
                self.heard(0x580 + entry.slave["node"], *self.wrong_answer(entry))
            else:
                self.tick(entry.left - rng.choice((0, 0, 1)))
        elif stage == "state":
            if good:
                self.say(entry, OPERATIONAL if rng.random() < 0.8 else rng.choice((4, 127)))
            else:
                self.tick(entry.left - rng.choice((0, 0, 1)))
        elif stage == "control":
            if good:
                self.say(entry, OPERATIONAL if entry.running and rng.random() < 0.9 else rng.choice(STATES))
            else:
                self.tick(entry.left - rng.choice((0, 0, 1)))
        elif stage == "pausing":
            self.say(entry, 0) if rng.random() < 0.5 else self.tick(entry.left - rng.choice((0, 0, 1)))
        elif rng.random() < 0.03:
            self.say(entry, 0)
        elif entry.owed():
            self.work()
        elif entry.slave["hb"]:
            self.say(entry, OPERATIONAL if good else rng.choice(STATES))

    def step(self):
        rng = self.rng
        model = self.model
        chance = rng.random()
        if chance < (0.3 if self.profile == "noise" else 0.05):
            self.noise()
        elif chance < 0.4 and (chance < 0.1 or not model.entries):
            self.work(rng.choice((1, 1, 2, 5, 70 if self.profile == "full" else 1)))
        elif chance < {"loss": 0.2, "boottime": 0.25}.get(self.profile, 0.15):
            self.pass_time()
        elif model.entries:
            behind = [e for e in model.entries if e.stage != "passed" or e.owed()]
            entry = rng.choice(behind if behind and rng.random() < 0.9 else model.entries)
            self.help(entry)
        else:
            self.pass_time()

    def finish_sweep(self, rng):
        for _ in range(60 if self.model.gap else 15):
            if self.model.sweep is None or self.model.condition != "running":
                return
            count = 2 if self.model.gap else rng.choice((1, 10, 60))
            self.call("work", count)
            self.call("take", count)
            if self.model.gap and rng.random() < 0.5:
                self.tick(self.model.gap)

    def write(self, steps):
        rng = self.rng
        if self.profile == "full" and rng.random() < 0.5:
            self.fill_at_sweep_end()
        elif rng.random() < (0.9 if self.profile in ("keep", "loss") else 0.5):
            # Let the first sweep come to its end.
            for entry in self.model.entries:
                if entry.slave["keep"] and rng.random() < 0.2:
                    self.say(entry, rng.choice(STATES))
            self.finish_sweep(rng)
        for _ in range(steps):
            if self.model.sweep is not None and rng.random() < 0.1 and self.profile != "full":
                self.finish_sweep(rng)
            self.step()
            if self.model.condition == "halted" and rng.random() < 0.2:
                break
        self.call("work", 1)
        self.call("take", rng.choice((1, 2, 70)))


class Pair:
    """A sheet with a session for it."""

    def __init__(self, rng, profile=None, steps=None):
        self.profile = profile or rng.choice(PROFILES)
        self.sheet = random_sheet(rng, self.profile)
        writer = Writer(rng, self.sheet, self.profile)
        usual = rng.choice((10, 40, 100, 200)) + 8 * len(self.sheet["slaves"])
        writer.write(steps or usual)
        self.model = writer.model
        self.sheet_text = sheet_text(self.sheet).encode()
        self.session_text = "".join(line + "\n" for line in writer.lines).encode()

    def expected(self):
        return self.model.report().encode()


# Logs

def log_text(rng, trace, with_sent):
    """The session as a log of the cable: one frame a line, with the time. Ticks become time."""
    now = 1436509052 * 1000000 + rng.randrange(1000000)
    lines = []
    for entry in trace:
        if entry[0] == "tick":
            now += entry[1] * 1000
            continue
        kind, ident, data = entry
        if (kind == "sent" and not with_sent) or ident > 2047 or len(data) > 8:
            continue
        now += rng.randint(1, 40)
        lines.append(f"({now // 1000000}.{now % 1000000:06}) can0 {ident:03X}#{bytes(data).hex().upper()}")
    return "".join(line + "\n" for line in lines).encode()
