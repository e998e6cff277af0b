#!/usr/bin/env python3
"""Writes what noted_runs has to print for a script of runs, found without clocks: by a search over the orders' edges.

usage: python3 tools/expect_noted_runs.py < crates/noted_runs/stdin > crates/noted_runs/stdout

An event j has before it, or is, each i from which a chain of edges leads to j: an edge goes to a later event of the same
thread, from a release of a lock to a later acquire of it, and under order 2 from the last earlier write of a variable to
a read of it.
"""
import sys


def parts(words, *labels):
    return [int(words[words.index(label) + 1]) for label in labels]


class Run:
    def __init__(self, name, counts):
        self.name, self.counts, self.steps = name, counts, []
        self.room = (16, 64, 16)
        threads, locks, variables = counts
        if not (1 <= threads <= 32 and locks <= 256 and variables <= 1024):
            self.counts = (0, 0, 0)


class Notes:
    """The accepted events of a run under an order."""

    def __init__(self, run, order):
        self.run, self.order, self.log, self.holder, self.local = run, order, [], {}, []
        self.own, self.last_write, self.source = {}, {}, {}

    def note(self, event):
        threads, locks, variables = self.run.counts
        log_places, stamp_places, _ = self.run.room
        t, kind, n = event
        at = len(self.log)
        if t >= threads:
            return 9
        if n >= (locks if kind in ("acquire", "release") else variables):
            return 10
        if kind == "acquire" and n in self.holder:
            return 11
        if kind == "release" and self.holder.get(n) != t:
            return 12
        if at >= log_places or (at + 1) * threads > stamp_places or at >= 65535:
            return 13
        if kind == "acquire":
            self.holder[n] = t
        if kind == "release":
            del self.holder[n]
        if kind == "read" and self.order == 2 and n in self.last_write:
            self.source[at] = self.last_write[n]
        if kind == "write":
            self.last_write[n] = at
        self.own[t] = self.own.get(t, 0) + 1
        self.local.append(self.own[t])
        self.log.append(event)
        return None

    def below(self, j):
        """The positions that are before j or are j."""
        found, threads, locks, sources = [], set(), set(), {j}
        for i in range(j, -1, -1):
            t, kind, n = self.log[i]
            if i in sources or t in threads or kind == "release" and n in locks:
                found.append(i)
                threads.add(t)
                if kind == "acquire":
                    locks.add(n)
                if i in self.source:
                    sources.add(self.source[i])
        return found

    def time(self, j):
        known = [0] * self.run.counts[0]
        for i in self.below(j):
            known[self.log[i][0]] = max(known[self.log[i][0]], self.local[i])
        return "(" + ",".join(map(str, known)) + ")"

    def pairs(self):
        listed = []
        for j, (t, kind, n) in enumerate(self.log):
            if kind not in ("read", "write"):
                continue
            under = None
            for i in range(j):
                u, other, m = self.log[i]
                if m == n and u != t and other in ("read", "write") and "write" in (kind, other):
                    under = under or set(self.below(j))
                    if i not in under:
                        listed.append(f"{i}-{j}")
        return listed


def text(event):
    t, kind, n = event
    return f"t{t} {kind} {'l' if kind in ('acquire', 'release') else 'v'}{n}"


class Tally:
    orders = events = compared = differ = 0

    def word(self, found, expected):
        if expected == "?":
            return ""
        self.check(found == expected)
        return " as expected" if found == expected else " DIFFERS"

    def check(self, holds):
        self.compared += 1
        self.differ += not holds


def show(run, order, expected, past, tally):
    print(f"run {run.name} order {order}")
    notes, times = Notes(run, order), iter(expected[0].split())
    for at, step in enumerate(run.steps):
        if step[0] == "again":
            for _ in range(step[1]):
                for earlier in run.steps[:at]:
                    assert notes.note(earlier[1]) is None
            print(f"  the same {step[1]} times more, the last at position {len(notes.log) - 1}")
            continue
        _, event, refused = step
        number = notes.note(event)
        if number is None:
            assert refused is None
            time = notes.time(len(notes.log) - 1)
            print(f"  {text(event)}: {time}{tally.word(time, next(times))}")
            tally.check(True)
        else:
            print(f"  {text(event)}: refused {number}")
            tally.check(number == refused)
    listed = notes.pairs()
    held = listed[: run.room[2]]
    found = " ".join(held + ([f"of {len(listed)}"] if len(listed) > len(held) else [])) or "none"
    print(f"  pairs {found}{tally.word(found, expected[1])}")
    end = min(len(notes.log), 16)
    under = [set(notes.below(j)) for j in range(end)]
    found = " ".join(f"{i}-{j}" for i in range(end) for j in range(end) if i != j and i in under[j]) or "none"
    print(f"  before {found}{tally.word(found, expected[2])}")
    found = "event 14 stamp 14 before 14 pair 15"
    print(f"  events {len(notes.log)}, past the end: {found}{tally.word(found, past)}")
    tally.orders += 1
    tally.events += len(notes.log)


def main():
    tally, past, run = Tally(), "?", None
    for line in sys.stdin.read().splitlines():
        words = line.split()
        if not words or line.startswith("#"):
            continue
        if words[0] == "check":
            k, locks, variables = parts(words, "threads", "locks", "variables")
            bank = "1" if not 1 <= k <= 32 else "2" if locks + variables > 1280 else "none"
            book = "none" if 1 <= k <= 32 and locks <= 256 and variables <= 1024 else "7"
            stated = words[words.index("bank") + 1], words[words.index("notebook") + 1]
            also = tally.word(bank, stated[0]), tally.word(book, stated[1])
            print(f"threads {k} locks {locks} variables {variables}: bank {bank}{also[0]}, notebook {book}{also[1]}")
        elif line.startswith("past the end: "):
            past = line[len("past the end: "):]
        elif words[0] == "run":
            run = Run(words[1], tuple(parts(words, "threads", "locks", "variables")))
        elif words[0] == "room":
            run.room = tuple(parts(words, "log", "stamps", "pairs"))
        elif words[0] == "again":
            run.steps.append(("again", int(words[1])))
        elif words[0] == "order":
            number, rest = line[len("order "):].split(" times ")
            times, rest = rest.split("/ pairs ")
            pairs, before = rest.split(" / before ")
            show(run, int(number), (times, pairs, before), past, tally)
        else:
            event = (int(words[0][1:]), words[1], int(words[2][1:]))
            run.steps.append(("note", event, int(words[4]) if len(words) > 3 else None))
    print(f"{tally.orders} runs of {tally.events} events, {tally.compared} results compared, {tally.differ} differ")


main()
