"""The core of a plan, as `lockexplore core` prints it: the locks, the flags, the condition variables, and a line for each place of each party.

docs/PLANS.md has the format.
"""
import itertools

from plan_text import ACQUIRED, CHANGED, MOVES, RELEASED

SECOND_WAYS = {"try", "repeat", "forever", "either", "pick", "or", "if", "timed sleep", *(f"try {it}" for it in MOVES)}


def core_text(plan):
    """The text of the core of a plan without a fault."""
    texts = [*map(lock_text, plan.locks.items()), *map(counter_text, plan.counters.items())]
    texts += [f"condvar {it}\n" for it in plan.condvars]
    started = {it.name for it in plan.mentions if it.word == "start"}
    for (_, alone), run in itertools.groupby(plan.parties, lambda it: (it.first, it.name in started and it.name)):
        texts.append(party_text(plan, [*run], bool(alone)))
    return "".join(texts)


def lock_text(item):
    """The line of a lock."""
    name, lock = item
    words = [lock.kind, name, *([] if lock.kind == "mutex" else [str(lock.limit)]), *["bar"] * lock.has_bar, *["fair"] * lock.is_fair]
    return f"{' '.join(words)}\n"


def counter_text(item):
    """The line of a counter."""
    name, (kind, most, first) = item
    last = {"flag": " true" * first, "counter": f" {most} = {first}", "semaphore": f" {first} {most}", "channel": f" {most}"}
    return f"{kind} {name}{last[kind]}\n"


def party_text(plan, copies, is_started):
    """The lines of parties that share their places. One that is started idles at a place of its own before them."""
    party = copies[0]
    head = f"\n{'server' if party.is_server else 'party'} {' '.join(it.name for it in copies)}\n"
    first = party.program[0].line.number if party.program else 0
    before = [("idle", [2], first)] if is_started else []
    rows = before + [(act_of(plan, it.line), [way + 1 + is_started for way in ways_of(it)], it.line.number) for it in party.program]
    return head + "".join(place_text(number, len(rows), *row) for number, row in enumerate(rows, 1))


def place_text(number, count, act, ways, line):
    """The line of a place with this number, of so many."""
    text = f"{f'{number:4}  {act}':40} -> {' | '.join(str(it) if it <= count else 'end' for it in ways)}"
    return f"{text:54} line {line}\n"


def ways_of(place):
    """The places after a place."""
    word, other = place.line.word, place.next if place.other is None else place.other
    return [place.next, other] if word in SECOND_WAYS else [place.next]


def look_text(plan, line, value):
    """Whether a counter is to have reached a number."""
    if plan.counters[line.name].kind == "flag":
        return f"{'' if value else 'not '}{line.name}"
    return f"{line.name} {'>=' if value else '<'} {line.number_asked}"


def act_of(plan, line):
    """The act of a line of a party."""
    *tried, word = line.word.split()
    if word in MOVES:
        return " ".join([*tried, "add" if MOVES[word][1] > 0 else "take", line.name])
    match line.word:
        case "call" | "wait":
            return call_text(line.call)
        case "try":
            return f"try {call_text(line.call)}"
        case "if":
            return f"if {look_text(plan, line, True)}"
        case "repeat" | "forever":
            return "repeat"
        case "either" | "pick" | "or":
            return "either"
        case "timed sleep":
            return f"sleep {line.name} or timeout"
        case "assert":
            return f"assert {look_text(plan, line, line.value)}"
        case "set" if plan.counters[line.name].kind != "flag":
            return f"set {line.name} {line.number_asked}"
    return f"{line.word} {line.name}"


def call_text(call):
    """The act of a call."""
    word, lock = call
    if word in CHANGED:
        return f"change {lock} {' '.join(CHANGED[word])}"
    if word in ("announce", "withdraw"):
        return f"{word} {lock}"
    return f"acquire {lock} {ACQUIRED[word]}" if word in ACQUIRED else f"release {lock} {RELEASED[word]}"
