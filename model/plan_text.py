"""Reads a plan: its locks, flags and condition variables, and each party's lines as a program of places.

docs/PLANS.md has the format. A fault of the plan is the exception `Fault`.
"""
import itertools
import math
import pathlib
import re
from typing import NamedTuple

ACQUIRED = {"lock": "exclusive", "read": "shared", "write": "exclusive", "upgradable_read": "upgradable", "announce": "announced"}
RELEASED = {
    "unlock": "exclusive",
    "unlock_read": "shared",
    "unlock_write": "exclusive",
    "unlock_upgradable": "upgradable",
    "withdraw": "announced",
}
CHANGED = {
    "upgrade": ("upgradable", "exclusive"),
    "downgrade": ("exclusive", "shared"),
    "downgrade_to_upgradable": ("exclusive", "upgradable"),
    "downgrade_upgradable": ("upgradable", "shared"),
}
CALLS = {*ACQUIRED, *RELEASED, *CHANGED}
# words that move a counter, each with the kind of counter and by how much
MOVES = {
    "add": ("counter", 1),
    "take": ("counter", -1),
    "release": ("semaphore", 1),
    "acquire": ("semaphore", -1),
    "send": ("channel", 1),
    "receive": ("channel", -1),
}
# calls that join the line of a fair lock, and calls that may be tried
ACQUISITIONS = {"lock", "read", "write", "upgradable_read"}
TRIED = {*ACQUISITIONS, "upgrade"}
# other words of calls
SAME_CALLS = {"unlock_upgradable_read": "unlock_upgradable"}
# the lines for which those of barriers and latches, and the calls of these, stand: `@` is the name and `#` the number
GATES = {
    "barrier": ["mutex @", "counter @ #", "flag @.turn", "condvar @"],
    "latch": ["mutex @", "counter @ # = #", "condvar @"],
    "await barrier": [
        "lock @", "add @", "if @ >= #", "set @ 0", "if @.turn", "clear @.turn", "else", "set @.turn", "end", "notify_all @",
        "else", "if @.turn", "wait @ @ until not @.turn", "else", "wait @ @ until @.turn", "end", "end", "unlock @",
    ],
    "await latch": ["lock @", "wait @ @ until @ < 1", "unlock @"],
    "count_down latch": ["lock @", "try take @", "end", "notify_all @", "unlock @"],
}
# the lines that replace those of a channel and its calls: after `0` a line of channels without room alone, and after `!` one of channels that may be closed;
# after `?` comes the first line of a block that receives from such a channel
CHANNELS = {
    "channel": ["channel @ #", "0 counter @.turn 1 = 1", "0 counter @.ack 1", "! counter @.any +", "! flag @.closed"],
    "send": ["! assert not @.closed", "0 take @.turn", "send @", "! add @.any", "0 take @.ack", "0 add @.turn"],
    "try send": ["! assert not @.closed", "try send @", "! add @.any"],
    "receive": ["receive @", "0 add @.ack"],
    "try receive": ["try receive @", "0 add @.ack"],
    "receive!": ["take @.any", "try receive @", "0 add @.ack", "else", "add @.any", "end"],
    **{f"{it} receive!": [f"? {it} receive @", "0 add @.ack"] for it in ("try", "if", "while")},
    "close!": ["assert not @.closed", "set @.closed", "add @.any"],
}
# lines of one word, each of a block
BLOCK_WORDS = {"repeat", "forever", "either", "else", "or", "end", "leave", "return"}
# words of a text with which a block begins, lines with which one begins, and those of them to which a party comes back at its end
BLOCKS = {"repeat", "forever", "either", "try", "if", "while"}
# lines with which a block begins that receives from a channel that may be closed
RECEIPTS = {"try receipt", "if receipt", "while receipt"}
BEGINS = {*BLOCKS, *RECEIPTS, "until", "timed sleep", "pick", "enter", *(f"try {it}" for it in MOVES)}
LOOPS = {"repeat", "until", "forever", "while receipt"}
# what a line in the midst of a block makes of it, by the line with which the block began or went on; and what may come before its end
TURNS = {("else", "try"): "else", ("else", "if"): "else", ("else", "timed sleep"): "else", ("or", "either"): "or", ("or", "or"): "or", ("or", "pick"): "or"}
TURNS |= {("else", it): "else" for it in ("try receipt", "if receipt", *(f"try {it}" for it in MOVES))}
ENDS = {*LOOPS, *RECEIPTS, "try", "if", "else", "or", "enter", "def", *(f"try {it}" for it in MOVES)}
PARTS = {"else", "or", "end"}
# words of a condition with several looks, which no flag of it may have for a name
BETWEEN_LOOKS = {"not", "and", "or", "timeout"}
SLEEPS = {"sleep", "timed sleep"}
LOCK_LINES = {"mutex", "rwlock", "reentrant"}
COUNTER_LINES = {"flag", "counter", "semaphore", "channel"}
DECLARED = {*LOCK_LINES, *COUNTER_LINES, "condvar", "barrier", "latch"}
WORD = re.compile(r"[^ \t\r]+")
NAME = re.compile(r"[A-Za-z0-9_.-]+")
LIMIT = re.compile(r"[1-9][0-9]{0,9}")
# the name of a line that expands to several, and a word of a line that is another one for each party
ROW = re.compile(r"([^[]*)\[([0-9]+)\]")
INDEX = re.compile(r"([^[]*)\[i(?:\+([1-9]|[1-5][0-9]|6[0-4]))?\]")
LARGEST_LIMIT = 2**32 - 1
LONGEST_INPUT = 2**20
MOST_NUMBERED = 2**128 - 1
MOST_COPIES = 64
MOST_OPEN = 64
MOST_PARAMETERS = 64
MOST_FILES = 64


class Fault(Exception):
    """Why a plan has no answer; its one argument is the text."""


class Lock(NamedTuple):
    kind: str
    limit: int
    has_bar: bool
    is_fair: bool


class Counter(NamedTuple):
    """A flag, a counter, a semaphore or a channel: its word, its greatest value and its first one."""

    kind: str
    most: int
    first: int


class Call(NamedTuple):
    word: str
    lock: str


class Block(str):
    """The word of a line `call` or `pick` that is written out: the lines below, up to an `end`, are those that it stands for."""


class Inline(str):
    """The word of a line `pick` with one choice, which is written in the lines below."""


class Uncalled(str):
    """The one word of a line of a function that no line calls, as long as the line. No word of the format is equal to it.

    It has the words of the line, with `1` in place of each parameter, and the name by which the function may be called, or None.
    """

    function: str | None
    words: list


class AnyKind(str):
    """A kind that every kind is equal to."""

    __hash__ = str.__hash__

    def __eq__(self, _other):
        return True


class AnyNames(dict):
    """A table that has each name, with a counter of any kind."""

    def __contains__(self, name):
        return NAME.fullmatch(name) is not None

    def __getitem__(self, _name):
        return Counter(AnyKind(), MOST_COPIES, 0)


class Line(NamedTuple):
    """A line of a party: a word of a block, `call` or `try` with a call, or a word with a name.

    A line `wait` of the text becomes several: see `wait_lines`. The number of a line of a function is `N from M`, where `M` is that of the call.
    The number of a line of an included file is `FILE:N`.
    """

    number: int | str
    word: str
    call: Call | None = None
    name: str = ""
    # the number that `set` gives a counter, or that a look asks whether the counter has reached; 1 for a flag
    number_asked: int = 1
    # the answer that `assert` wants
    value: bool = True
    # the condition at which `until` ends, or for which the first part of an `if` is: all looks of one of these groups, each a name, a number and an answer
    test: tuple = ()


class Place(NamedTuple):
    """A place of a program: its line, the place after it, and the one after a refused try or a timeout, or where a part is passed.

    Each look of a condition is a place with the word `if`. The place after it is that for a true flag, and the other one that for a false flag.
    """

    line: Line
    next: int
    other: int | None


class Party(NamedTuple):
    """A party: the number of the first party that its line makes, its lines, its program, and what it holds at each place and the end."""

    name: str
    first: int
    lines: list
    is_server: bool
    program: list
    holds: dict


class Plan(NamedTuple):
    """Locks and counters by name, condition variables, parties, the lines that name a party, and where the text has come to.

    That is the parties of the last line of parties, whose lines are below it, and the blocks open there.
    """

    locks: dict
    counters: dict
    condvars: list
    parties: list
    mentions: list
    called: list
    open: list
    functions: dict

    def number_of(self, name):
        return [it.name for it in self.parties].index(name)

    def is_any_number(self):
        """Whether the plan has any number of parties of some name."""
        return any(it.name.endswith("*") for it in self.parties)

    def is_started(self, name):
        """Whether a line starts the party with this name."""
        return any(it.word == "start" and it.name == name for it in self.mentions)

    def copies(self):
        """The runs of parties that one line makes and that no line names, each a part of the list of parties."""
        named = {it.name for it in self.mentions}
        runs = itertools.groupby(enumerate(self.parties), lambda it: (it[1].first, it[1].name in named))
        numbers = [[number for number, _ in run] for (_, is_named), run in runs if not is_named]
        return [slice(it[0], it[-1] + 1) for it in numbers if len(it) > 1]


def read_plan(text, folder="."):
    """The plan of these bytes, or a fault. The files that it includes are in this folder."""
    words, last = expanded_lines(text, folder)
    plan = Plan({}, {}, [], [], [], [], [], {})
    for number, fields in words:
        if not read_line(plan, number, fields):
            raise Fault(f"bad line {str(number).split()[0]}")
    if plan.open or not words:
        raise Fault(f"bad line {last + 1}")
    names = {it.name for it in plan.parties}
    for mention in plan.mentions:
        if mention.name not in names:
            raise fault_of(mention.number, "unknown party")
    check_begun(plan)
    for party in plan.parties:
        party.program.extend(places(party.lines))
    for party in plan.parties:
        find_holds(plan, party)
    return plan


def expanded_lines(text, folder="."):
    """The lines with words, each a number and its words, with those that are short for several expanded; and how many lines the text has."""
    if len(text) > LONGEST_INPUT:
        raise Fault("input too long")
    found = expanded(with_files(text, folder, {"": len(text)}, ()))
    if length_of(found) > LONGEST_INPUT:
        raise Fault("input too long")
    return found, len(text_lines(text))


def text_lines(text):
    """The lines of these bytes."""
    return text.decode("latin-1").removesuffix("\n").split("\n") if text else []


def with_files(text, folder, lengths, around):
    """The lines with words, each a number and its words, with those of each included file in the place of the line that includes it.

    `lengths` has the length of each file that was read, by its name, and `around` the names of the files in which this text is included.
    """
    found = []
    for number, line in enumerate(text_lines(text), 1):
        number, words = f"{around[-1]}:{number}" if around else number, WORD.findall(line.partition("#")[0])
        if words[:1] != ["include"] or len(words) != 2:
            found += [(number, words)] if words else []
            continue
        name = f"{pathlib.PurePosixPath(*around[-1:]).parent / words[1]}"
        if name in around:
            raise fault_of(number, f"'{name}' includes itself")
        found += with_files(opened(number, name, folder, lengths), folder, lengths, (*around, name))
    return found


def opened(number, name, folder, lengths):
    """The bytes of a file that the line with this number includes."""
    path = pathlib.Path(folder, name)
    if not path.exists():
        raise fault_of(number, f"cannot read '{name}': no such file")
    text = path.read_bytes()
    lengths[name] = len(text)
    if len(lengths) > 1 + MOST_FILES:
        raise fault_of(number, f"cannot read '{name}': more than {MOST_FILES} files")
    if sum(lengths.values()) > LONGEST_INPUT:
        raise fault_of(number, f"cannot read '{name}': input too long")
    return text


def fault_of(number, why):
    """The fault of a line with this number, which names the calls around it."""
    line, *calls = str(number).split(" from ")
    return Fault(", ".join([f"line {line}: {why}", *(f"from line {it}" for it in calls)]))


def expanded(lines):
    """The lines, each a number and its words, with those that are short for several expanded."""
    found = for_copies([it for line in with_functions(lines) for it in rows(*line)])
    heads = [at for at, (_, words) in enumerate(found) if words[0] in ("party", "server")]
    parts = [found[begin:end] for begin, end in itertools.pairwise([*heads, len(found)])]
    found = [*found[: heads[0] if heads else None], *[it for part in parts for it in by_index(part)]]
    found = with_channels(with_gates(found))
    locks = {words[1] for _, words in found if words[0] in LOCK_LINES and len(words) > 1}
    return turns(with_picks(found, locks, {}))


def is_head(words):
    """Whether a line of these words begins parties."""
    return words[0] in ("party", "server")


def begins_block(words):
    """Whether a line of these words begins a block with an `end`."""
    return words[0] in BLOCKS or words[0] == "def" or isinstance(words[0], Block)


def replaced(words, others):
    """The words, where those after the first one are others by this table."""
    return [words[0], *(others.get(it, it) for it in words[1:])]


def with_functions(lines):
    """The lines, with those of a function below each call of it, and an `end` below them. Of the function itself its first line and its `end` are left.

    Between these two are the lines of a function that no line calls, each as one word, for which nothing is written out.
    """
    functions, found, at = {}, [], 0
    while at < len(lines):
        words = lines[at][1]
        if words[0] != "def":
            found += called(functions, *lines[at], len(functions))
            at += 1
            continue
        end = end_of_function(lines, at + 1)
        body, name = lines[at + 1 : end], words[1] if len(words) > 1 and words[1] not in functions else None
        if name is not None:
            functions[name] = (len(functions), words[2:], body)
        has_end = end < len(lines) and lines[end][1] == ["end"]
        found += [lines[at], *((line, [uncalled(name, words[2:], it)]) for line, it in body), *([lines[end]] if has_end else [])]
        at = end + has_end
    names = {words[1] for _, words in found if isinstance(words[0], Block)}
    return [it for it in found if getattr(it[1][0], "function", None) not in names]


def uncalled(function, parameters, words):
    """The one word of a line of a function that no line calls."""
    others = dict.fromkeys(parameters, "1")
    found, call = Uncalled(" " * len(" ".join(words))), ["lock"] if words[0] == "try" and words[1:2] and words[1] in others else words[1:2]
    found.function, found.words = function, [words[0], *(indexed(others.get(it, it), 0, 1) for it in [*call, *words[2:]])]
    return found


def end_of_function(lines, at):
    """Where the `end` of a function is whose lines begin here, or else the next function or party."""
    depth = 0
    while at < len(lines) and not (is_head(lines[at][1]) or lines[at][1][0] == "def" or lines[at][1] == ["end"] and not depth):
        depth += begins_block(lines[at][1]) - (lines[at][1] == ["end"])
        at += 1
    return at


def called(functions, number, words, above):
    """The line and, where it calls one of the first so many functions with as many words as that has parameters, those of the function."""
    which, parameters, body = functions.get(words[1], (above, [], [])) if words[0] == "call" and len(words) > 1 else (above, [], [])
    if which >= above or len(words) != 2 + len(parameters):
        return [(number, words)]
    arguments = dict(zip(parameters, words[2:]))
    inside = [(f"{line} from {number}", replaced(it, arguments)) for line, it in body]
    return [(number, [Block("call"), *words[1:]]), *(it for line in inside for it in called(functions, *line, which)), (number, ["end"])]


def with_gates(lines):
    """The lines, with those for which barriers, latches and their calls stand in the place of these."""
    gates, found = {}, []
    for number, words in lines:
        word, name, most, *rest = [*words, "", ""]
        which = word if word in ("barrier", "latch") and len(words) == 3 and NAME.fullmatch(name) and whole_of(most) > 0 else ""
        if which:
            gates.setdefault(name, (word, most))
        elif name in gates and len(words) == 2:
            which, most = f"{word} {gates[name][0]}", gates[name][1]
        made = [(number, it.replace("#", most).replace("@", name).split()) for it in GATES.get(which, [])]
        found += made or [(number, words)]
    return found


def with_channels(lines):
    """The lines, with those of channels without room, and of channels that may be closed, in the place of theirs."""
    closed = {words[-1] for _, words in lines if words[:-1] in (["close"], ["if", "receive"], ["while", "receive"])}
    channels, found = {}, []
    for number, words in lines:
        room = whole_of(words[2]) if words[0] == "channel" and len(words) == 3 and NAME.fullmatch(words[1]) else -1
        name = words[1] if room >= 0 else words[-1]
        if room >= 0:
            channel = (room == 0, room < MOST_COPIES and name in closed)
            channels.setdefault(name, channel)
        else:
            channel = channels.get(name, (False, False))
        call = "channel" if room >= 0 else " ".join(words[:-1])
        call = f"{call}!" if channel[1] and f"{call}!" in CHANNELS else call
        if not any(channel) or call not in CHANNELS:
            found.append((number, words))
        elif call == "try send" and channel[0]:
            found.append((number, ["try", "send", "without", "room"]))
        else:
            found += [(number, it) for it in channel_lines(call, name, room, *channel)]
    return found


def channel_lines(call, name, room, is_offered, is_closed):
    """The words of each line that replaces a call of a channel, or the line that declares one."""
    has = {"0": is_offered, "!": is_closed, "?": True}
    for template in CHANNELS[call]:
        mark, _, rest = template.partition(" ")
        words = [it.replace("@", name) for it in (rest if mark in has else template).split()]
        words = [{"#": str(max(room, 1)), "+": str(max(room, 1) + 1)}.get(it, it) for it in words]
        if has.get(mark, True):
            yield [Block(words[0]), *words[1:]] if mark == "?" else words


def with_picks(lines, locks, others):
    """The lines, with those below a `pick` up to the end of the part once for each lock among which it chooses.

    A word after the first of a line is another one by the table of those. The name of a `pick` is none of these words.
    """
    found, at = [], 0
    while at < len(lines):
        number, words = lines[at]
        at += 1
        is_pick = words[0] == "pick"
        words = [*words[: 1 + is_pick], *(others.get(it, it) for it in words[1 + is_pick :])]
        choices = choices_of(words, locks)
        if not choices:
            found.append((number, words))
            continue
        end = end_of_part(lines, at)
        parts = [with_picks(lines[at:end], locks, {**others, words[1]: lock}) for lock in choices]
        found.append((number, [(Block if len(choices) > 1 else Inline)("pick"), *words[1:]]))
        found += parts[0]
        for part in parts[1:]:
            found += [(number, ["or"]), *part]
        found += [(number, ["end"])] if len(choices) > 1 else []
        at = end
    return found


def choices_of(words, locks):
    """The locks among which a line of these words chooses, if it is a `pick`."""
    match words:
        case ["pick", _, "of", row, *rest] if not rest or len(rest) == 2 and rest[0] == "except":
            names = itertools.takewhile(lambda it: it in locks, (f"{row}.{it}" for it in range(1, MOST_COPIES + 1)))
            return [it for it in names if it not in rest[1:]]
    return []


def end_of_part(lines, at):
    """Where the part of a block ends that goes on here."""
    depth = 0
    while at < len(lines) and not is_head(lines[at][1]) and (depth or lines[at][1][0] not in PARTS):
        depth += begins_block(lines[at][1]) - (lines[at][1] == ["end"])
        at += 1
    return at


def rows(number, words):
    """The lines for which a line with the name `NAME[N]` stands."""
    row = ROW.fullmatch(words[1]) if words[0] in DECLARED and len(words) > 1 else None
    count = number_of(row[2], MOST_COPIES) if row else 0
    return [(number, [words[0], f"{row[1]}.{copy}", *words[2:]]) for copy in range(1, count + 1)] or [(number, words)]


def for_copies(lines):
    """The lines, with one for each copy of a party in place of a line `start NAME *` or `join NAME *`."""
    counts, found = {}, []
    for _, words in lines:
        if words[0] in ("party", "server") and len(words) == 3 and number_of(words[2], MOST_COPIES):
            counts.setdefault(words[1], number_of(words[2], MOST_COPIES))
    for number, words in lines:
        is_for_all = words[0] in ("start", "join") and words[2:] == ["*"]
        count = counts.get(words[1], 0) if is_for_all else 0
        found += [(number, [words[0], f"{words[1]}.{copy}"]) for copy in range(1, count + 1)] or [(number, words)]
    return found


def by_index(lines):
    """The lines of a line of parties and those below it, for each of its parties where a word has an index."""
    (number, head), *below = lines
    count = number_of(head[2], MOST_COPIES) if len(head) == 3 else 0
    if not count or not any(INDEX.fullmatch(word) for _, words in below for word in words):
        return lines
    found = []
    for copy in range(count):
        found.append((number, [head[0], f"{head[1]}.{copy + 1}"]))
        found += [(line, [indexed(it, copy, count) for it in words]) for line, words in below]
    return found


def indexed(word, copy, count):
    """The word in the lines of a party with so many others before it, of so many in all."""
    found = INDEX.fullmatch(word)
    return f"{found[1]}.{(copy + int(found[2] or 0)) % count + 1}" if found else word


def turns(lines):
    """The lines, where those of a block `repeat N` come N times."""
    found, opened = [], []
    for line in lines:
        words = line[1]
        if begins_block(words):
            opened.append((number_of(words[1], MOST_COPIES) if words[0] == "repeat" and len(words) == 2 else 0, len(found)))
        count, at = opened.pop() if words == ["end"] and opened else (0, 0)
        if count < 1:
            found.append(line)
            continue
        if length_of(found[at + 1 :]) * count > LONGEST_INPUT:
            raise Fault("input too long")
        found[at:] = found[at + 1 :] * count
    return found


def length_of(lines):
    """The length of a text of these lines in bytes."""
    return len("\n".join(" ".join(words) for _, words in lines))


def number_of(word, most):
    """The number that a word is, from 1 to `most` and without leading zeros, or 0."""
    return int(word) if LIMIT.fullmatch(word) and int(word) <= most else 0


def check_states(plan):
    """Makes a fault of a plan with too many states to search."""
    if math.prod([*(points(plan, it) for it in plan.parties), *(it.most + 2 for it in plan.counters.values())]) > MOST_NUMBERED:
        raise Fault("too many states")


def check_begun(plan):
    """Makes a fault of a plan with a party that never begins: a line starts it, but none of a party that begins."""
    starts = {it.name: it.number for it in plan.mentions if it.word == "start"}
    lines = {it.name: it.lines for it in plan.parties}
    begun = [it for it in lines if it not in starts]
    for name in begun:
        begun += [it.name for it in lines[name] if it.word == "start"]
    for name in lines if len(begun) < len(lines) else []:
        if name not in begun:
            raise fault_of(starts[name], "never begins")


def read_line(plan, number, words):
    """Adds what the line says to the plan, and returns whether it is in the format."""
    if words == ["end"] and plan.open[-1:] == ["def"]:
        plan.open.pop()
        return True
    if isinstance(words[0], Uncalled):
        return read_uncalled(plan, number, words[0].words)
    lines = lines_of(plan, number, words)
    if lines is not None:
        return plan.parties != [] and all(add_line(plan, it) for it in lines)
    return not plan.open and len(words) > 1 and NAME.fullmatch(words[1]) is not None and read_names(plan, *words)


def read_uncalled(plan, number, words):
    """Whether the line of a function that no line calls is in the format, where any name may be that of any thing. It adds its blocks to the open ones."""
    match words:
        case ["call", _, *_] | ["await" | "count_down" | "close", _]:
            return all(map(NAME.fullmatch, words))
        case ["pick", _, "of", _] | ["pick", _, "of", _, "except", _]:
            return all(map(NAME.fullmatch, words))
        case ["start" | "join", name] | ["start" | "join", name, "*"]:
            return NAME.fullmatch(name) is not None
        case ["repeat", turns] if number_of(turns, MOST_COPIES):
            words = words[:1]
        case ["if" | "while", "receive", _]:
            words = [Block(words[0]), *words[1:]]
    lines = lines_of(Plan(AnyNames(), AnyNames(), AnyNames(), [], [], [], [], {}), number, words)
    return lines is not None and all(add_line(plan._replace(mentions=[], called=[]), it) for it in lines)


def lines_of(plan, number, words):
    """The lines of a party which these words of a line say, or None where they say no such line."""
    words = [SAME_CALLS.get(words[0], words[0]), *words[1:]] if len(words) == 2 else words
    match words:
        case ["call", name, *arguments] if isinstance(words[0], Block) and name in plan.functions and all(map(NAME.fullmatch, arguments)):
            return [Line(number, "enter", name=name)]
        case ["pick", *names] if isinstance(words[0], Block | Inline) and all(map(NAME.fullmatch, names)):
            return [Line(number, "pick")] if isinstance(words[0], Block) else []
        case [word] if word in BLOCK_WORDS:
            return [Line(number, word)]
        case ["try", word, lock] if word in TRIED and lock in plan.locks:
            return [Line(number, "try", Call(word, lock))]
        case [word, lock] if word in CALLS and lock in plan.locks:
            return [Line(number, "call", Call(word, lock))]
        case [("start" | "join") as word, name] if NAME.fullmatch(name):
            return [Line(number, word, name=name)]
        case [("set" | "clear") as word, name] if has_kind(plan, name, "flag"):
            return [Line(number, word, name=name)]
        case ["set", name, value] if is_number_of(plan, name, value):
            return [Line(number, "set", name=name, number_asked=int(value))]
        case [word, name] if word in MOVES and has_kind(plan, name, MOVES[word][0]):
            return [Line(number, word, name=name)]
        case [word, "receive", name] if isinstance(word, Block) and has_kind(plan, name, "channel") and has_kind(plan, f"{name}.any", "counter"):
            return [Line(number, f"{word} receipt", name=name)]
        case ["try", word, name] if word in MOVES and has_kind(plan, name, MOVES[word][0]):
            return [Line(number, f"try {word}", name=name)]
        case [("notify_one" | "notify_all") as word, name] if name in plan.condvars:
            return [Line(number, word, name=name)]
        case ["assert", *test]:
            groups = condition_of(plan, test)
            if groups is None or len(groups) > 1:
                return None
            return [Line(number, "assert", name=name, number_asked=asked, value=value) for name, asked, value in groups[0]]
        case ["if", *test]:
            return test_lines(plan, number, "if", test)
        case ["repeat", "until", *test]:
            return test_lines(plan, number, "until", test)
        case ["wait", condvar, mutex, *rest] if condvar in plan.condvars and mutex in plan.locks:
            return wait_lines(plan, number, condvar, mutex, rest)
    return None


def has_kind(plan, name, *kinds):
    """Whether a counter of one of these kinds has the name."""
    return name in plan.counters and plan.counters[name].kind in kinds


def is_number_of(plan, name, word, above=0):
    """Whether a counter that is no flag has the name, and its greatest value and so many above it are not below the number that the word is."""
    return has_kind(plan, name, "counter", "semaphore", "channel") and 0 <= whole_of(word) <= plan.counters[name].most + above


def whole_of(word):
    """The number that a word is, from 0 to 64 and without leading zeros, or -1."""
    return 0 if word == "0" else number_of(word, MOST_COPIES) or -1


def looks_in(plan, words):
    """The looks that `[not] FLAG`, `COUNTER >= N`, `COUNTER < N` or `COUNTER = N` is, each a name, a number and an answer; or None."""
    match words:
        case [name] if has_kind(plan, name, "flag"):
            return [(name, 1, True)]
        case ["not", name] if has_kind(plan, name, "flag"):
            return [(name, 1, False)]
        case [name, (">=" | "<" | "=") as how, word] if is_number_of(plan, name, word, how == "<") and name not in BETWEEN_LOOKS:
            found = [(name, int(word), how != "<")]
            return found + [(name, int(word) + 1, False)] if how == "=" else found
    return None


def condition_of(plan, words):
    """The groups of looks of a condition, or None where the words are none. `or` separates groups, and `and` the looks of a group."""
    if looks := looks_in(plan, words):
        return (tuple(looks),)
    groups = [[it.split() for it in group.split(" and ")] for group in " ".join(words).split(" or ")]
    found = [[looks_in(plan, it) for it in group] for group in groups]
    if any(looks is None or looks[0][0] in BETWEEN_LOOKS for group in found for looks in group):
        return None
    return tuple(tuple(look for looks in group for look in looks) for group in found)


def test_lines(plan, number, word, words):
    """The line with this word and this condition, or None where it is none."""
    test = condition_of(plan, words)
    return test and [Line(number, word, test=test)]


def wait_lines(plan, number, condvar, mutex, rest):
    """The lines of a wait, or None where the words after its mutex are wrong.

    They are `wait` with the release of the mutex, `sleep`, and the call that acquires the mutex again. With flags, they lie between
    the first lines of a loop and `end`. A `timed sleep` begins a block of two parts: the first for a party that is woken, the second after a timeout.
    """
    until = test_lines(plan, number, "until", rest[1:]) if rest[:1] == ["until"] else None
    is_timed = not until and rest[-2:] == ["or", "timeout"]
    rest = rest[:-2] if is_timed else rest
    until = until or (test_lines(plan, number, "until", rest[1:]) if rest[:1] == ["until"] else None)
    if rest and not until:
        return None
    release, lock = Line(number, "wait", Call("unlock", mutex), condvar), Line(number, "call", Call("lock", mutex))
    sleep = Line(number, "timed sleep" if is_timed else "sleep", name=condvar)
    second, leave, end = (Line(number, it) for it in ("else", "leave", "end"))
    if not until:
        return [release, sleep, *([second, end] if is_timed else []), lock]
    return [*until, release, sleep, lock, *([second, lock, leave, end] if is_timed else []), end]


def add_line(plan, line):
    """Adds a line to the parties whose lines come here, and returns whether it fits them and the open blocks."""
    word, inner, is_in_loop = line.word, "".join(plan.open[-1:]), any(it in LOOPS for it in plan.open)
    around = next((it for it in reversed(plan.open) if it in LOOPS or it == "enter"), "")
    if word == "start" and (plan.is_started(line.name) or is_in_loop or len(plan.called) > 1):
        return False
    if word == "leave" and around not in LOOPS or word == "return" and not inner:
        return False
    if word in BEGINS:
        plan.open.append(word)
    elif word == "end" and inner in ENDS:
        plan.open.pop()
    elif word in PARTS:
        if (word, inner) not in TURNS:
            return False
        plan.open[-1] = TURNS[word, inner]
    if word in ("start", "join"):
        plan.mentions.append(line)
    for party in plan.called:
        party.lines.append(line)
    return len(plan.open) <= MOST_OPEN


def read_names(plan, word, name, *rest):
    """Adds the lock, flag, condition variable or parties of a line with this word and this name, and returns whether it is right."""
    if word == "def":
        is_right = all(map(NAME.fullmatch, rest)) and len({*rest}) == len(rest) <= MOST_PARAMETERS and name not in plan.functions
        plan.functions[name] = len(rest)
        plan.open.append("def")
        return is_right
    if word in ("party", "server"):
        return read_parties(plan, word == "server", name, rest)
    if word in COUNTER_LINES:
        counter = counter_of(word, rest)
        is_right = counter is not None and 0 <= counter.first <= counter.most > 0 and name not in plan.counters
        plan.counters[name] = counter
        return is_right
    if word == "condvar":
        plan.condvars.append(name)
        return not rest and plan.condvars.count(name) == 1
    has_limit = word == "reentrant" or word == "rwlock" and "".join(rest[:1])[:1].isdigit()
    limit = number_of("".join(rest[:1]), LARGEST_LIMIT) if has_limit else 1 if word == "mutex" else LARGEST_LIMIT
    last = rest[has_limit:]
    has_bar, is_fair = word == "rwlock" and last == ("bar",), word != "reentrant" and last == ("fair",)
    is_right = word in ("mutex", "rwlock", "reentrant") and limit and len(last) == has_bar + is_fair and name not in plan.locks
    plan.locks[name] = Lock(word, limit, has_bar, is_fair)
    return is_right


def counter_of(word, rest):
    """The counter of a line with this word, by the words after its name, or None."""
    match word, *rest:
        case ["flag"] | ["flag", "true"]:
            return Counter(word, 1, len(rest))
        case ["counter" | "channel", most]:
            return Counter(word, whole_of(most), 0)
        case ["counter", most, "=", first]:
            return Counter(word, whole_of(most), whole_of(first))
        case ["semaphore", first]:
            return Counter(word, whole_of(first), whole_of(first))
        case ["semaphore", first, most]:
            return Counter(word, whole_of(most), whole_of(first))
    return None


def read_parties(plan, is_server, name, rest):
    """Adds a party, or as many copies of one as the field after its name says, and returns whether the line is right.

    A `*` makes any number of parties, of which the plan has one.
    """
    count = number_of("".join(rest), MOST_COPIES)
    names = [f"{name}.{copy}" for copy in range(1, count + 1)] if rest else [name]
    names = [f"{name}.*"] if rest == ("*",) else names
    if len(rest) > 1 or not names or any(it.name in names for it in plan.parties):
        return False
    plan.called[:] = [Party(it, len(plan.parties), [], is_server, [], {}) for it in names]
    plan.parties.extend(plan.called)
    return True


def places(lines):
    """The program of these lines. Each line is a place, but for jumps, `else`, `end`, `enter`, and an `or` before the last part of its branch.

    A line with a condition is a place for each look. A party goes from a true look to the next one of its group, and from a false one to the next group.

    From the last line to the first, `after` is the line of the next step. Each open block has its begin, the next step after it, and
    the step at which a part is passed, None below the last part.
    """
    opened, begins = [], {}
    for at, line in enumerate(lines):
        if line.word in BEGINS:
            opened.append(at)
        elif line.word == "end":
            begins[at] = opened.pop()
    ways, blocks, after = {}, [], len(lines)
    for at, word in reversed([(at, line.word) for at, line in enumerate(lines)]):
        begin, leave, past = blocks[-1] if blocks else (None, None, None)
        if word == "end":
            blocks.append((begins[at], after, None))
            after = begins[at] if lines[begins[at]].word in LOOPS else after
        elif word == "leave":
            after = next(end for start, end, _ in reversed(blocks) if lines[start].word in LOOPS)
        elif word == "return":
            after = next((end for start, end, _ in reversed(blocks) if lines[start].word == "enter"), len(lines))
        elif word in PARTS:
            if past is not None:
                ways[at] = lines[at], after, past
            blocks[-1] = begin, leave, after if past is None else at
            after = leave
        else:
            if word in BEGINS:
                blocks.pop()
            if word == "enter":
                continue
            is_branch = word in BEGINS - {"forever"}
            outside = (leave if past is None else past) if is_branch else None
            if word in RECEIPTS:
                ways |= receipt_of(at, lines[at], after, outside)
            elif lines[at].test:
                ways |= looks_of(at, lines[at], *((outside, after) if word == "until" else (after, outside)))
            else:
                ways[at] = lines[at], after, outside
            after = at
    number = {at: it for it, at in enumerate([*sorted(ways), len(lines)])} | {None: None}
    return [Place(line, number[after], number[other]) for _, (line, after, other) in sorted(ways.items())]


def looks_of(at, line, yes, no):
    """The looks of a line with a condition, with where a true one and a false one lead. They lie between the line and the next one."""
    begins = [*itertools.accumulate([0, *map(len, line.test)])]
    found = {}
    for begin, end, group in zip(begins, begins[1:], line.test):
        for look, (name, asked, value) in enumerate(group, begin):
            is_so = yes if look + 1 == end else at + (look + 1) / begins[-1]
            is_not = no if end == begins[-1] else at + end / begins[-1]
            found[at + look / begins[-1]] = line._replace(word="if", name=name, number_asked=asked, test=()), *((is_so, is_not) if value else (is_not, is_so))
    return found


def receipt_of(at, line, inside, outside):
    """The steps of a block that receives from a channel that may be closed, with where they lead. They lie between the line and the next one."""
    is_try, look, item, none = line.word == "try receipt", at + 1 / 4, at + 2 / 4, at + 3 / 4
    token = line._replace(name=f"{line.name}.any")
    return {
        at: (token._replace(word="try take" if is_try else "take"), item, look if is_try else None),
        **({look: (line._replace(word="if"), at, outside)} if is_try else {}),
        item: (line._replace(word="try receive"), inside, none),
        none: (token._replace(word="add"), outside, None),
    }


def find_holds(plan, party):
    """Finds what the party holds at each place, where that is a function of the place; else makes a fault."""
    known = party.holds
    known[0] = ()
    for at, (line, after, other) in enumerate(party.program):
        if at not in known:
            raise fault_of(line.number, "never reached")
        holds = known[at]
        why = call_fault(plan, holds, line) if line.call else None
        if why is not None:
            raise fault_of(line.number, why)
        for target, brought in [(after, holds_after(holds, line.call) if line.call else holds), (other, holds)]:
            if target is not None and known.setdefault(target, brought) != brought:
                raise fault_of(line.number, "holds differ")


def call_fault(plan, holds, line):
    """Why a party that holds this can never make the call of the line, or None."""
    word, lock = line.call
    kind, limit, _, is_fair = plan.locks[lock]
    if (word in ("lock", "unlock")) != (kind != "rwlock") or line.word == "wait" and kind != "mutex":
        return "wrong kind of lock"
    if line.word == "try" and word in ACQUISITIONS and is_fair:
        return "try of a fair lock"
    if word == "withdraw" and (lock, "announced") not in holds:
        return "not announced"
    if word == "announce" and (lock, "announced") in holds:
        return "announced already"
    needed = RELEASED.get(word) or CHANGED.get(word, [None])[0]
    if needed is not None and (lock, needed) not in holds:
        return "not held"
    if word == "lock" and kind == "reentrant" and holds.count((lock, "exclusive")) == limit:
        return "too many levels"
    return None


def points(plan, party):
    """How many states the party may have: before its start, at each place and the end, and announced on the way to a write."""
    calls = [(party.holds[it], place.line.call) for it, place in enumerate(party.program) if place.line.word == "call"]
    announced = sum(announces_itself(plan, *it) for it in calls)
    return plan.is_started(party.name) + len(party.program) + 1 + announced


def announces_itself(plan, holds, call):
    """Whether the call announces itself before it waits."""
    return call.word == "write" and plan.locks[call.lock].has_bar and (call.lock, "announced") not in holds


def holds_after(holds, call):
    """What a party holds after a call that is admitted."""
    held = list(holds)
    before, after = CHANGED.get(call.word, (RELEASED.get(call.word), ACQUIRED.get(call.word)))
    if before is not None:
        held.remove((call.lock, before))
    elif call.word == "write" and (call.lock, "announced") in held:
        held.remove((call.lock, "announced"))
    return tuple(sorted(held + [(call.lock, after)] * (after is not None)))
