#!/usr/bin/env python3
"""Writes random valid sheets and sessions, and compares what programs make of them.

    random_sessions.py FOLDER --count 1000 --seed 1
    random_sessions.py --count 1000 --run PROGRAM PROGRAM     (nothing is kept but differences)

A program takes SHEET SESSION. What each prints is compared with what the generator's own model says, and so with the others.
"""
import argparse
import os
import random
import sys
import tempfile
from collections import Counter

from generate import PROFILES, Pair
from running import Runner, limit_memory


def store(folder, pair):
    os.makedirs(folder, exist_ok=True)
    for name, text in (("sheet.txt", pair.sheet_text), ("session.txt", pair.session_text), ("stdout", pair.expected())):
        with open(os.path.join(folder, name), "wb") as file:
            file.write(text)


def main():
    parser = argparse.ArgumentParser(description=__doc__, formatter_class=argparse.RawDescriptionHelpFormatter)
    parser.add_argument("folder", nargs="?", help="where the pairs go, each in a folder of its own")
    parser.add_argument("--count", type=int, default=1000)
    parser.add_argument("--seed", type=int, default=1)
    parser.add_argument("--run", nargs="+", default=[], metavar="PROGRAM", help="programs to compare")
    parser.add_argument("--keep", default=os.path.join(os.path.dirname(os.path.abspath(__file__)), "found"),
                        help="where differing pairs go")
    parser.add_argument("--limit", type=float, default=20, help="seconds for a run")
    args = parser.parse_args()
    if not args.folder and not args.run:
        parser.error("give a folder, or programs to run")
    programs = [os.path.abspath(program) for program in args.run]
    limit_memory(1 << 30)
    sessions, times, lines = Counter(), Counter(), 0
    failures = differences = 0
    with tempfile.TemporaryDirectory(dir="/dev/shm" if os.path.isdir("/dev/shm") else None) as scratch:
        runner = Runner(scratch)
        for number in range(args.count):
            rng = random.Random(f"{args.seed}/{number}")
            pair = Pair(rng, PROFILES[number % len(PROFILES)])
            lines += pair.session_text.count(b"\n")
            sessions.update(set(pair.model.events))
            times.update(pair.model.events)
            place = os.path.join(args.folder, f"{number:06}") if args.folder else os.path.join(scratch, "pair")
            store(place, pair)
            wanted = pair.expected()
            for program in programs:
                run = runner.run([program, os.path.join(place, "sheet.txt"), os.path.join(place, "session.txt")], args.limit)
                if run.status != 0 or run.out != wanted:
                    failures += run.status != 0
                    differences += run.status == 0
                    kept = os.path.join(args.keep, f"session-{args.seed}-{number:06}")
                    store(kept, pair)
                    with open(os.path.join(kept, "stdout." + os.path.basename(program)), "wb") as file:
                        file.write(run.out)
                    print(f"{'status ' + str(run.status) if run.status else 'differs'}: {kept} {program}")
    print(f"{args.count} sessions, {lines} lines; what happened, in how many sessions and how often:")
    for event, count in sorted(sessions.items(), key=lambda item: -item[1]):
        print(f"  {event:<26} {count:>8} {times[event]:>9}")
    if programs:
        print(f"{args.count * len(programs)} runs, {failures} failures, {differences} differences")
    return 1 if failures or differences else 0


if __name__ == "__main__":
    sys.exit(main())
