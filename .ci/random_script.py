"""Random scripts for shared locks. The lock admits most calls, or refuses a try; few lines are refused."""
import random

FORMS = ["{}", "try_{}", "try_{}_for", "try_{}_until"]
RELEASES = ["unlock", "unlock", "unlock_fair", "into_arc", "into_arc_fair"]
ACQUIRES = {"lock": "exclusive", "read": "shared", "upgradable_read": "upgradable", "write": "exclusive"}
CALLS = {"mutex": ["lock"], "reentrant": ["lock"], "rwlock": ["read", "read", "upgradable_read", "write"]}
QUESTIONS = {
    "mutex": ["is_locked", "spent"],
    "rwlock": ["is_locked", "is_locked_exclusive", "is_barred", "spent"],
    "reentrant": ["is_locked", "is_owned_by 1", "is_owned_by 2", "spent"],
}
# what a party does with a guard of any lock, of one that changes its item, and of a rwlock in a mode
USES = ["release"] * 3 + ["bump", "get", "park"]
CHANGES = ["change"] * 2
MODE_USES = {"exclusive": ["downgrade"] * 2, "upgradable": ["downgrade", "upgrade", "with_upgraded"], "shared": []}


class Script:
    """A script so far, with the guards that its lock has."""

    def __init__(self, kind, seed):
        self.kind = kind
        self.draw = random.Random(f"{kind} {seed}")
        self.places = self.draw.choice([1, 2, 3, 4, 8, 16])
        self.limit = self.draw.choice([1, 2, 3, 4, 100, 2**32 - 1])
        self.lines, self.guards = [], 0
        self.held, self.parked = {}, {}  # the mode and the party of each guard
        self.add(kind, self.places, *([] if kind == "mutex" else [self.limit]), self.number(), self.number())

    def number(self):
        return self.draw.choice([0, 1, -1, self.draw.randint(-99, 99), self.draw.randint(-(2**63), 2**63 - 1)])

    def item(self):
        return self.draw.choice([0, 1] * 20 + [2])

    def is_rare(self):
        return self.draw.random() < 0.05

    def add(self, *words):
        self.lines.append(" ".join(map(str, words)))

    def owner(self):
        return next(iter(self.held.values()))[1]

    def admits(self, mode, party):
        """Whether the lock admits a guard of this mode, or None where it refuses even a try."""
        modes = [it for it, _ in self.held.values()]
        if self.kind == "reentrant" and modes:
            return (len(modes) < self.limit or None) if party == self.owner() else False
        if mode == "exclusive":
            return not modes
        alone = mode == "upgradable" and "upgradable" in modes
        return "exclusive" not in modes and not alone and (self.kind != "rwlock" or len(modes) < self.limit)

    def form(self, call, admitted):
        """A form that is granted or answers `none`, and seldom a blocking call that the model refuses."""
        return self.draw.choice(FORMS if admitted or self.is_rare() else FORMS[1:]).format(call)

    def acquire(self):
        """An acquisition, of a reentrant lock mostly by its owner."""
        call = self.draw.choice(CALLS[self.kind])
        by_owner = self.kind == "reentrant" and self.held and self.draw.random() < 0.8
        party = self.owner() if by_owner else self.draw.randint(1, 3)
        admitted = self.admits(ACQUIRES[call], party)
        full = len(self.held) + len(self.parked) >= self.places
        if (full or admitted is None) and self.draw.random() < 0.9:
            return
        self.add(self.form(call, admitted), party)
        if admitted and not full:
            self.guards += 1
            self.held[self.guards] = (ACQUIRES[call], party)

    def resume(self):
        guard = self.draw.choice([*self.parked])
        mode, party = self.parked[guard]
        if self.is_rare():
            self.add("abandon", party, guard)
            del self.parked[guard]
        elif self.admits(mode, party):
            self.add("resume", party, guard)
            self.held[guard] = self.parked.pop(guard)
        elif self.is_rare():
            self.add("resume", party, guard)

    def use(self):
        """A call on a held guard."""
        guard = self.draw.choice([*self.held])
        mode, party = self.held[guard]
        uses = USES + CHANGES * (self.kind != "reentrant" and mode == "exclusive")
        word = self.draw.choice(uses + (MODE_USES[mode] if self.kind == "rwlock" else []))
        is_alone, more = len(self.held) == 1, []
        if word == "release":
            word = self.draw.choice(RELEASES)
            del self.held[guard]
        elif word == "park":
            word = self.draw.choice(["park", "park_fair"])
            self.parked[guard] = self.held.pop(guard)
        elif word == "get":
            more = [self.item()]
        elif word == "change":
            word, more = self.draw.choice(["set", "add"]), [self.item(), self.number()]
        elif word == "downgrade":
            lower = self.draw.choice(["shared", "upgradable"]) if mode == "exclusive" else "shared"
            word = "downgrade" if lower == "shared" else "downgrade_to_upgradable"
            self.held[guard] = (lower, party)
        elif word == "upgrade":
            word = self.form(word, is_alone)
            self.held[guard] = ("exclusive" if is_alone else mode, party)
        elif word == "with_upgraded":
            word, more = self.form(word, is_alone), [self.item(), self.draw.randint(-9, 9)]
        self.add(word, party, guard, *more)

    def add_line(self):
        choice = self.draw.random()
        if choice < 0.05:
            self.add(self.draw.choice(QUESTIONS[self.kind]))
        elif 0.35 <= choice < 0.55 and self.parked:
            self.resume()
        elif choice >= 0.35 and self.held:
            self.use()
        else:
            self.acquire()


def random_script(kind, seed, lines):
    """A script of so many lines for a lock of this kind. The same words give the same script."""
    script = Script(kind, seed)
    while len(script.lines) < lines:
        script.add_line()
    return "".join(f"{it}\n" for it in script.lines)
