"""Random plans: the same number makes the same plan on every machine."""
import itertools
import random
import re
from typing import NamedTuple

from plan_text import BLOCKS, MOVES, TRIED, Fault, read_plan

# how many calls a party has at most, for 1 to 5 parties, so that a plan has some thousands of worlds at most
MOST_CALLS = [12, 14, 9, 6, 5]
MOST_WITH_BLOCKS = [12, 9, 6, 4, 3]
MOST_WITH_SIGNALS = [12, 12, 9, 6, 5]
MOST_IN_PART = 3  # of a block
RELEASES = {
    "mutex": {"exclusive": "unlock"},
    "reentrant": {"exclusive": "unlock"},
    "rwlock": {"shared": "unlock_read", "exclusive": "unlock_write", "upgradable": "unlock_upgradable", "announced": "withdraw"},
}
CHANGES = {
    "shared": [],
    "exclusive": [("downgrade", "shared"), ("downgrade_to_upgradable", "upgradable")],
    "upgradable": [("upgrade", "exclusive"), ("upgrade", "exclusive"), ("downgrade_upgradable", "shared")],
    "announced": [],
}
# texts and lines with which a plan may become wrong
SPOILS = [
    "", " ", "\n", "x", "0", "\r", "\u00e9", " bar", " fair", "4294967296", "lock0", "party p1\n", "server p 2\n", "mutex lock0\n",
    "end\n", " not", " until flag0", " or flag0", " true", "flag flag0\n", "condvar cond0\n", "start p1\n", " or timeout", " *", "[i]", "[i+1]", "[2]", " 2",
    "repeat 2\n", "leave\n", "return\n", "repeat 1\n", "def f0 x\n", "call f0\n", "call f0 lock0\n", "pick y of row\n", " and flag0", " and not flag1",
    "close count0\n", "channel count0 0\n", "while receive count0\n", "add count0\n", "receive count0\n", " = 1", " >= 2", "counter count0 2\n", "try take count0\n",
]
STRAY_BLOCKS = ["repeat", "either", "else", "or", "end", "forever", "repeat 2", "leave", "return", "repeat 1", "def f9", "call f0", "pick y of row"]
STRAY_SIGNALS = [
    "set flag0", "if flag0", "if not flag0", "wait cond0 lock0", "start p1", "join p9", "notify_all cond0", "assert flag0", "repeat until flag0",
    "wait cond0 lock0 until flag0 or timeout", "start p2 *", "join p1 *",
    "repeat until flag0 or not flag1", "wait cond0 lock0 until flag0 or flag1 or timeout", "if flag0 and not flag1 or flag1",
    "close count0", "if receive count1", "while receive count0", "while count0", "try send count0", "barrier gate[2] 2", "await gate.1",
    "await gate0", "count_down gate0", "await count0", "barrier lock0 2", "latch gate1 x", "add count0", "acquire count0", "try send count0", "set count0 1", "set flag0 1", "if count0 >= 1", "assert count0 < 1", "assert flag0 or flag1", "if flag0 = 1",
]
ACQUISITIONS = [("read", "shared"), ("read", "shared"), ("write", "exclusive"), ("upgradable_read", "upgradable")]
ANY_CALL = ["lock", "announce", *(word for word, _ in ACQUISITIONS)]
ANY_CALL += [*(word for those in RELEASES.values() for word in those.values()), "upgrade", "downgrade"]


def random_plan(number):
    """The bytes of a plan. Half of the plans have signals. One in six has a line that may be wrong.

    Where parties have copies, some plans have a row with a lock for each copy, which all or some of these parties name by index.
    """
    rng = random.Random(number)
    locks = [f"lock{it}" for it in range(rng.randint(1, 3))]
    kinds = {it: rng.choice(["mutex", "rwlock", "rwlock", "rwlock", "reentrant"]) for it in locks}
    limits = {it: rng.randint(1, 3) for it in locks}
    lines = [lock_line(rng, it, kinds[it], limits[it]) for it in locks]
    has_blocks = rng.random() < 1 / 2
    heads = random_heads(rng)
    total = sum(len(names) for _, names in heads)
    most = (MOST_WITH_BLOCKS if has_blocks else MOST_CALLS)[total - 1]
    most_copies = max(len(names) for _, names in heads)
    has_row = most_copies > 1 and rng.random() < 0.5
    if has_row:
        most -= most // 4
        lines.append(row_line(rng, most_copies, kinds, limits))
    signals = None
    if rng.random() < 1 / 2:
        most = MOST_WITH_SIGNALS[total - 1] - has_blocks - has_row
        signals = random_signals(rng, lines, kinds, heads)
    fair = {line.split()[1].partition("[")[0] for line in lines if line.endswith(" fair")}
    maker = Maker(rng, kinds, limits, fair, rng.random() < 0.5, has_blocks, signals)
    is_chain = signals and signals.condvars and len(heads) == total and rng.random() < 0.5
    shared = [it for it in locks if kinds[it] == "rwlock" and limits[it] > 1 and it in fair and not is_chain and rng.random() < 0.5][:1]
    for at, (head, names) in enumerate(heads):
        lines += [head, *chain_lines(rng, signals, at)] if is_chain else [head]
        lines += [line for it in shared for line in maker.visit(it)]
        found = maker.party_lines(rng.randint(0, most // 2 if is_chain or shared else most), names)
        lines += by_index(rng, found) if has_row and (len(names) > 1 or rng.random() < 0.05) else found
    if has_row and rng.random() < 0.5:
        lines = with_pick(rng, lines)
    if rng.random() < 1 / 3:
        lines = with_functions(rng, lines)
    text = "\n".join(with_faults(rng, lines, locks, has_blocks)) + "\n" * rng.randint(0, 1)
    return spoilt(rng, text).encode() if rng.random() < 0.06 else text.encode()


def sound_plans():
    """The random plans without a fault, each with its number and its text."""
    for number in itertools.count():
        text = random_plan(number)
        try:
            plan = read_plan(text)
        except Fault:
            continue
        yield number, text, plan


def random_heads(rng):
    """Lines of parties, each with the names of its parties: four parties at most, or five of which four are copies."""
    heads, parties = [], rng.choice([1, 2, 2, 3, 3, 4, 5])
    while parties > 0:
        copies = rng.randint(1, parties) if rng.random() < 0.4 else None
        copies = 4 if parties == 5 else copies
        name = f"p{parties}"
        names = [f"{name}.{it}" for it in range(1, copies + 1)] if copies else [name]
        heads.append((f"{'server' if rng.random() < 0.2 else 'party'} {name}" + (f" {copies}" if copies else ""), names))
        parties -= copies or 1
    return heads


def random_signals(rng, lines, kinds, heads):
    """The names for signals; adds the lines of flags and condition variables, and makes a lock a mutex."""
    kinds["lock0"], lines[0] = "mutex", lock_line(rng, "lock0", "mutex", 1)
    flags = [f"flag{it}" for it in range(rng.randint(0, 2))]
    counters = {f"count{it}": rng.choice(["counter", "counter", "semaphore", "channel", "channel"]) for it in range(rng.choice([0, 0, 1, 1, 2]))}
    condvars = [f"cond{it}" for it in range(rng.choice([0, 1, 1, 2]))]
    lines += [f"flag {it}{rng.choice(['', '', ' true'])}" for it in flags] + [f"condvar {it}" for it in condvars]
    lines += [counter_line(rng, *it) for it in counters.items()]
    parties = [name for _, names in heads for name in names]
    unstarted = {it for it in parties if rng.random() < 0.4}
    unstarted |= {name for _, names in heads if len(names) > 1 and rng.random() < 0.3 for name in names}
    gates, gate = {}, rng.choice(["", "", "", "gate0", "gate[2]"])
    if gate:
        kind = rng.choice(["barrier", "latch"])
        gates = {it: kind for it in (["gate.1", "gate.2"] if "[" in gate else [gate])}
        lines.append(f"{kind} {gate} {rng.choice([1, 2, 2])}")
    return Signals(flags, counters, gates, condvars, parties, unstarted)


def counter_line(rng, name, kind):
    """The line of a counter, a semaphore or a channel."""
    most = rng.choice([1, 1, 2, 3] if kind != "channel" else [0, 0, 1, 2])
    last = {"counter": ["", f" = {rng.randint(0, most)}"], "semaphore": ["", f" {most + rng.randint(0, 1)}"], "channel": [""]}
    return f"{kind} {name} {most}{rng.choice(last[kind])}"


def look(rng, signals):
    """A look at a flag or a counter."""
    name = rng.choice([*signals.flags, *signals.counters])
    return f"{name} {rng.choice(['>=', '<', '='])} {rng.choice([0, 1, 1, 2])}" if name in signals.counters else f"{rng.choice(['', '', 'not '])}{name}"


def condition(rng, signals):
    """A condition of one look or several."""
    found = look(rng, signals)
    for _ in range(rng.choice([0, 0, 0, 1, 1, 2])):
        found += f" {rng.choice(['and', 'or'])} {look(rng, signals)}"
    return found


def with_pick(rng, lines):
    """The lines, where a party picks a lock of the row, and has it in the place of one, up to the end of the part where it picks."""
    places = [at for at, line in enumerate(lines) if re.search(r" row\.[0-9]$", line)]
    if not places:
        return lines
    at = rng.choice(places)
    named = lines[at].split()[-1]
    begin = at - rng.randint(0, min(2, at - max(it for it, line in enumerate(lines[:at]) if is_head(line)) - 1))
    end = next((it for it in range(at, len(lines)) if is_head(lines[it])), len(lines))
    other = rng.choice(["", "", f" except row.{rng.randint(1, 4)}"])
    return [*lines[:begin], f"pick any of row{other}", *(re.sub(rf" {re.escape(named)}$", " any", it) for it in lines[begin:end]), *lines[end:]]


def is_head(line):
    return line.startswith(("party", "server"))


def with_functions(rng, lines):
    """The lines, of which some are in functions that are called in their place."""
    first = next(it for it, line in enumerate(lines) if is_head(line))
    functions = []
    for number in range(rng.choice([1, 1, 2])):
        begin, end = sorted(rng.randint(first + 1, len(lines)) for _ in range(2))
        end = min(end, begin + rng.randint(0, 6))
        part = lines[begin:end]
        if not is_balanced(part):
            continue
        names = sorted({it.split()[-1] for it in part if len(it.split()) == 2 and not it.startswith(("start", "join", "repeat", "call"))})
        names = rng.sample(names, rng.randint(0, min(2, len(names))))
        parameters = [f"x{it}" for it in range(len(names))]
        table = dict(zip(names, parameters))
        body = [" ".join([it.split()[0], *(table.get(word, word) for word in it.split()[1:])]) for it in part]
        body.insert(rng.randint(0, len(body)), "return") if rng.random() < 0.1 else None
        functions += [" ".join(["def", f"f{number}", *parameters]), *body, "end"]
        call = " ".join(["call", f"f{number}", *names])
        lines = [*lines[:begin], call, *lines[end:]]
        if rng.random() < 0.2:
            lines.insert(rng.randint(first + 1, len(lines)), call)
    at = rng.choice([first, first, first, rng.randint(0, len(lines))])
    return [*lines[:at], *functions, *lines[at:]]


def is_balanced(lines):
    """Whether these lines of a plan are of one party, and each block of them begins and ends in them."""
    depths = list(itertools.accumulate((line.split()[0] in BLOCKS) - (line == "end") for line in lines))
    outer = [line for line, depth in zip(lines, depths) if line in ("else", "or") and depth <= 0]
    return not any(map(is_head, lines)) and not outer and min(depths, default=0) >= 0 and (depths or [0])[-1] == 0


def chain_lines(rng, signals, number):
    """The first lines of a party of a chain: each party starts the next one and sleeps, and the last one notifies them."""
    condvar, flags = signals.condvars[0], signals.flags[:1]
    signals.unstarted.clear()
    if number + 1 == len(signals.parties):
        return ["lock lock0", *[f"set {it}" for it in flags], f"notify_{rng.choice(['one', 'all'])} {condvar}", "unlock lock0"]
    until = f" until {rng.choice([flags[0], condition(rng, signals)])}" if flags else ""
    until += rng.choice(["", "", " or timeout"])
    return ["lock lock0", f"start {signals.parties[number + 1]}", f"wait {condvar} lock0{until}", "unlock lock0"]


def with_faults(rng, lines, locks, has_blocks):
    """The lines, of which one may be wrong, twice there, or missing."""
    if rng.random() < 0.06:
        lines.insert(rng.randint(0, len(lines)), f"{rng.choice(ANY_CALL)} {rng.choice(locks)}")
    if rng.random() < 0.06:
        twice = rng.randrange(len(lines))
        lines.insert(twice, lines[twice])
    if rng.random() < (0.06 if has_blocks else 0.01):
        lines.insert(rng.randint(0, len(lines)), rng.choice([*STRAY_BLOCKS, f"try lock {rng.choice(locks)}"]))
    if rng.random() < 0.02:
        lines.insert(rng.randint(0, len(lines)), rng.choice(STRAY_SIGNALS))
    if has_blocks and rng.random() < 0.04:
        del lines[rng.randrange(len(lines))]
    return lines


def row_line(rng, count, kinds, limits):
    """The line of a row of so many locks, whose kinds and limits it adds."""
    kind, limit = rng.choice(["mutex", "rwlock"]), rng.randint(1, 2)
    for it in range(1, count + 1):
        kinds[f"row.{it}"], limits[f"row.{it}"] = kind, limit
    return lock_line(rng, f"row[{count}]", kind, limit)


def by_index(rng, lines):
    """The lines with an index in each name of a row, and in some names of parties."""
    names = rng.choice(["row", "row", "row|p[0-9]"])
    index = lambda it: f"{it[1]}[i]" if it[2] == "1" else f"{it[1]}[i+{int(it[2]) - 1}]"
    return [re.sub(rf"({names})\.([0-9])$", index, it) for it in lines]


def lock_line(rng, name, kind, limit):
    if kind == "mutex":
        return f"mutex {name}{rng.choice(['', '', ' fair'])}"
    if kind == "rwlock":
        limit = f" {limit}" if rng.random() < 0.9 else ""
        return f"rwlock {name}{limit}{rng.choice(['', ' bar', ' fair'])}"
    return f"{kind} {name} {limit}"


class Signals(NamedTuple):
    """The flags, counters, barriers and latches, condition variables and parties of a plan, and which parties still want a line that starts them."""

    flags: list
    counters: dict
    gates: dict
    condvars: list
    parties: list
    unstarted: set

    def has_looks(self):
        return bool(self.flags or self.counters)


class Maker(NamedTuple):
    """What makes the lines of a plan's parties. In order, a party mostly acquires locks after those it holds, and releases all."""

    rng: random.Random
    kinds: dict
    limits: dict
    fair: set
    is_ordered: bool
    has_blocks: bool
    signals: Signals | None

    def party_lines(self, most, names):
        """The lines of a line of parties with these names, with about as many calls as `most`."""
        found, held = self.lines([], most)
        while len(found) << found.count("repeat 2") > 3 * most:
            found, held = self.lines([], most)
        if self.signals and len(names) == 1:
            for name in sorted(self.signals.unstarted - {*names}):
                if name in self.signals.unstarted and self.rng.random() < 0.7:
                    started, line = self.started(name)
                    self.signals.unstarted.difference_update(started)
                    found.insert(self.at_top(found), line)
        if self.is_ordered or self.rng.random() < 0.7:
            found += self.releases_of(held)
            if self.has_blocks and len(found) < 6 and self.rng.random() < 0.3:
                found += ["forever", *self.part([]), "end"]
        return found

    def visit(self, lock):
        """The first lines of a party at a fair lock: mostly it reads twice, writes or upgrades."""
        between = self.part([(lock, "shared")]) if self.rng.random() < 0.3 else []
        reads = [f"read {lock}", *between, f"read {lock}", f"unlock_read {lock}", f"unlock_read {lock}"]
        writes = [*self.rng.choice([[f"write {lock}"], [f"upgradable_read {lock}", f"upgrade {lock}"]]), f"unlock_write {lock}"]
        return self.rng.choice([reads, reads, writes, writes, []])

    def part(self, held):
        """The lines of a part of a block: the party has the same holds after them."""
        found, own = self.lines(held, self.rng.randint(0, MOST_IN_PART))
        while len(found) > 3 * MOST_IN_PART:
            found, own = self.lines(held, self.rng.randint(0, MOST_IN_PART))
        return found + self.releases_of(own)

    def lines(self, held, most):
        """Lines of a party with these holds, and what it holds after them besides."""
        found, own = [], []
        while len(found) + len(own) < most:
            if self.has_blocks and self.rng.random() < 0.3:
                found += self.block(held + own)
                continue
            if self.signals and self.rng.random() < 0.4:
                found += self.signal(held + own)
                continue
            acts = self.releases(own) + self.changes(own) + 2 * self.acquisitions(held + own)
            if not acts:
                break
            word, lock, given, taken = self.rng.choice(acts)
            if given:
                own.remove((lock, given))
            if word in ("write", "lock") and (lock, "announced") in own:
                own.remove((lock, "announced"))
            if taken:
                own.append((lock, taken))
            found.append(f"{word} {lock}")
        return found, own

    def started(self, name):
        """Names of parties that a line starts, this one and perhaps all other copies, and the line."""
        copies = self.copies_with(name)
        is_for_all = len(copies) > 1 and self.signals.unstarted.issuperset(copies) and self.rng.random() < 0.7
        return (copies, f"start {name.partition('.')[0]} *") if is_for_all else ([name], f"start {name}")

    def copies_with(self, name):
        """The names of the copies of which one has this name."""
        return [it for it in self.signals.parties if it.partition(".")[0] == name.partition(".")[0]]

    def join(self):
        """A line that joins a party, or all copies of one."""
        name = self.rng.choice(self.signals.parties)
        return f"join {name.partition('.')[0]} *" if "." in name and self.rng.random() < 0.4 else f"join {name}"

    def at_top(self, lines):
        """A place in the lines at which no loop is open."""
        depths = [0]
        for line in lines:
            depths.append(depths[-1] + (line.split()[0] in BLOCKS) - (line == "end"))
        return self.rng.choice([at for at, depth in enumerate(depths) if depth == 0])

    def signal(self, held):
        """A line of a party with these holds that calls no lock, or a wait, or no line."""
        rng, signals = self.rng, self.signals
        found = [self.join()] if rng.random() < 0.3 else []
        flag = rng.choice(signals.flags) if signals.flags else None
        if flag:
            found += [f"{rng.choice(['set', 'set', 'set', 'clear', 'assert', 'assert not'])} {flag}"]
        if signals.counters:
            name = rng.choice([*signals.counters])
            moves = [word for word, (kind, _) in MOVES.items() if kind == signals.counters[name] or rng.random() < 0.01]
            found += [f"{rng.choice(moves)} {name}", f"{rng.choice(moves)} {name}", f"set {name} {rng.choice([0, 1])}"]
            found += 2 * [f"close {name}"] if signals.counters[name] == "channel" and rng.random() < 0.5 else []
            found += [f"assert {look(rng, signals)}{rng.choice(['', '', f' and {look(rng, signals)}'])}"] if rng.random() < 0.4 else []
        found += [f"{rng.choice(['await', 'count_down'] if kind == 'latch' or rng.random() < 0.05 else ['await'])} {it}" for it, kind in signals.gates.items()]
        if signals.condvars:
            condvar = rng.choice(signals.condvars)
            found += [f"notify_{rng.choice(['one', 'all'])} {condvar}"]
            until = f" until {condition(rng, signals)}" if signals.has_looks() and rng.random() < 0.7 else ""
            until += rng.choice(["", "", " or timeout"])
            found += 2 * [f"wait {condvar} {lock}{until}" for lock, mode in held if self.kinds[lock] == "mutex" or rng.random() < 0.02]
        return [rng.choice(found)] if found else [self.join()]

    def block(self, held):
        """A block of a party with these holds, which has the same ones after it."""
        channels = [name for name, kind in self.signals.counters.items() if kind == "channel"] if self.signals else []
        if channels and self.rng.random() < 0.4:
            return self.receipt(self.rng.choice(channels), held)
        word = self.rng.choice(["repeat", "repeat", "either", "try"])
        if word == "repeat":
            return self.loop(held)
        if self.signals and self.signals.has_looks() and self.rng.random() < 0.5:
            return [f"if {condition(self.rng, self.signals)}", *self.part(held), *self.other_part(held), "end"]
        if self.signals and self.signals.counters and self.rng.random() < 0.7:
            name = self.rng.choice([*self.signals.counters])
            word = self.rng.choice([word for word, (kind, _) in MOVES.items() if kind == self.signals.counters[name]])
            return [f"try {word} {name}", *self.part(held), *self.other_part(held), "end"]
        if word == "either":
            parts = [["or", *self.part(held)] for _ in range(self.rng.randint(1, 3))]
            return ["either", *self.part(held), *[line for part in parts for line in part], "end"]
        tried = [it for it in self.changes(held) + self.acquisitions(held) if it[0] in TRIED and self.may_try(*it[:2])]
        if not tried:
            return []
        word, lock, given, taken = self.rng.choice(tried)
        undone = "downgrade_to_upgradable" if given else RELEASES[self.kinds[lock]][taken]
        after = [it for it in held if it != (lock, given)] + [(lock, taken)]
        return [f"try {word} {lock}", *self.part(after), f"{undone} {lock}", *self.other_part(held), "end"]

    def receipt(self, name, held):
        """A block of a party with these holds that receives from a channel that may be closed."""
        if self.rng.random() < 0.5:
            return [f"if receive {name}", *self.part(held), *self.other_part(held), "end"]
        ways_out = self.way_out(held, False) if self.rng.random() < 0.3 else []
        return [f"while receive {name}", *self.part(held), *ways_out, "end"]

    def other_part(self, held):
        """The `else` of a party with these holds and the lines below it, or nothing."""
        return ["else", *self.part(held)] if self.rng.random() < 0.7 else []

    def may_try(self, word, lock):
        """Whether the call may be tried. A try that acquires a fair lock is a fault of the plan."""
        return word == "upgrade" or not self.is_fair(lock) or self.rng.random() < 0.2

    def is_fair(self, lock):
        return lock.partition(".")[0] in self.fair

    def loop(self, held):
        """A loop of a party with these holds, or a block that is made twice."""
        has_looks = self.signals and self.signals.has_looks()
        tests = [f"repeat until {condition(self.rng, self.signals)}" for _ in self.signals.flags or [""]] if has_looks else []
        head = self.rng.choice(["repeat", "forever", "repeat 2", "repeat 2", "repeat 1", *2 * tests])
        is_counted = head in ("repeat 1", "repeat 2")
        ways_out = self.way_out(held, head == "forever") if head == "forever" or not is_counted and self.rng.random() < 0.6 else []
        return [head, *self.part(held), *ways_out, *(self.part(held) if self.rng.random() < 0.3 else []), "end"]

    def way_out(self, held, is_only):
        """A branch of a party with these holds in which it may go out of a loop, or end."""
        rng = self.rng
        jump = ["leave"] if rng.random() < (0.8 if is_only else 0.4) else [*self.releases_of(held), "return"]
        tests = [(f"if {condition(rng, self.signals)}", "else")] if self.signals and self.signals.has_looks() else []
        head, between = rng.choice([("either", "or"), *tests])
        found = [head, *jump, between, "end"] if rng.random() < 0.5 else [head, between, *jump, "end"]
        if between == "else" and rng.random() < 0.5:
            found = [head, *jump, "end"]
        return ["repeat 2", *found, "end"] if rng.random() < 0.2 else found

    def releases_of(self, held):
        return [f"{self.same(RELEASES[self.kinds[lock]][mode])} {lock}" for lock, mode in reversed(held)]

    def same(self, word):
        """The word of a release, or its other name."""
        return "unlock_upgradable_read" if word == "unlock_upgradable" and self.rng.random() < 0.3 else word

    def releases(self, held):
        return [(RELEASES[self.kinds[lock]][mode], lock, mode, None) for lock, mode in held]

    def changes(self, held):
        on_rwlocks = [(lock, mode) for lock, mode in held if self.kinds[lock] == "rwlock"]
        return [(word, lock, mode, other) for lock, mode in on_rwlocks for word, other in CHANGES[mode]]

    def acquisitions(self, held):
        found = []
        for lock, kind in self.kinds.items():
            has, has_later = any(other == lock for other, _ in held), any(other > lock for other, _ in held)
            if self.is_fair(lock) and 0 < held.count((lock, "shared")) < self.limits[lock]:
                found += 2 * [("read", lock, None, "shared")]
            is_rare = has_later and self.is_ordered or has and kind != "reentrant"
            if is_rare and self.rng.random() < 0.9:
                continue
            if kind == "rwlock":
                found += [(word, lock, None, mode) for word, mode in ACQUISITIONS]
                if self.rng.random() < 0.4 and (lock, "announced") not in held:
                    found.append(("announce", lock, None, "announced"))
            elif held.count((lock, "exclusive")) < self.limits[lock] or kind == "mutex" or self.rng.random() < 0.05:
                found.append(("lock", lock, None, "exclusive"))
        return found


def spoilt(rng, text):
    """The text with one small change, after which a line may be wrong."""
    at = rng.randrange(len(text) + 1)
    changed = rng.choice(SPOILS)
    return text[:at] + changed + text[at + rng.randint(0, 1) :]
