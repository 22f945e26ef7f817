"""Scripts for lockreplay from interleavings of a plan, each lock a script of its own, with the answers that the model expects."""
import plans
from plan_text import ACQUIRED, CHANGED, RELEASED

# what a call of a plan is in a script, where that has another name
WORDS = {
    **dict.fromkeys(["unlock_read", "unlock_write", "unlock_upgradable"], "unlock"),
    "downgrade_upgradable": "downgrade",
}
PLACES = 100000
LONGEST = 60


class Desk:
    """The script of one lock so far, and its answers."""

    def __init__(self, name, lock):
        limits = f"{PLACES}" if lock.kind == "mutex" else f"{PLACES} {lock.limit}"
        self.name = name
        self.script = [f"{lock.kind} {limits} 0 0"]
        self.answers = ["ok"]
        self.issued = 0
        # the numbers of the guards that a party holds in a mode
        self.guards = {}

    def add(self, line, answer):
        self.script.append(line)
        self.answers.append(answer)

    def call(self, does, party, word, is_tried):
        """Adds a call of a party, whose turn the model foretells. A try does not announce its party."""
        form, refused = ("try_", "none") if is_tried else ("", "refused 1")
        if does == "announces" and not is_tried:
            self.add(f"{word} {party}", "refused 1")
            self.add(f"announce {party}", "ok")
        elif word in ("announce", "withdraw"):
            self.add(f"{word} {party}", "ok" if does == "goes" else "refused 17")
        elif word in ACQUIRED:
            self.issued += does == "goes"
            self.add(f"{form}{word} {party}", f"guard {self.issued}" if does == "goes" else refused)
            if does == "goes":
                self.held(party, ACQUIRED[word]).append(self.issued)
        else:
            before, after = CHANGED.get(word) or (RELEASED[word], None)
            guard = self.held(party, before)[-1]
            self.add(f"{form}{WORDS.get(word, word)} {party} {guard}", "ok" if does == "goes" else refused)
            if does == "goes":
                self.held(party, before).pop()
                self.held(party, after).append(guard)

    def held(self, party, mode):
        return self.guards.setdefault((party, mode), [])


def desk_scripts(plan, rng):
    """The scripts and answers of a random interleaving, and of the trace to the first stop with each party's call there."""
    everyone = range(len(plan.parties))
    schedules = [[(rng.choice(everyone), None) for _ in range(LONGEST)] if everyone else []]
    stop, came_from = plans.explore(plan)
    if stop is not None:
        trace = [(party, world) for party, _, world in plans.trace_to(plan, stop, came_from)]
        schedules.append(trace + [(party, None) for party in everyone])
    for schedule in schedules:
        for desk in replayed(plan, schedule, rng):
            yield desk.script, desk.answers


def replayed(plan, schedule, rng):
    """The desks of a plan's locks after the turns of the schedule: each a party, and the world after its step or None for any."""
    desks = {name: Desk(name, lock) for name, lock in plan.locks.items()}
    world = plans.first_world(plan)
    for party, chosen in schedule:
        place = plans.next_place(plan, world, party)
        if place is None:
            continue
        call = place.line.call
        if call is not None:
            does = plans.reply(plan, world, party, call)
            desks[call.lock].call(does, party + 1, call.word, place.line.word == "try")
        found = [after for after, _ in plans.steps(plan, world, party)]
        if found:
            world = chosen or rng.choice(found)
    return desks.values()
