"""Which acquisitions a person has said never to wait: lines `deadlock:NAME` of a file, as those of ThreadSanitizer."""

from __future__ import annotations

import re

from .symbols import Frame


class BadSuppressions(Exception):
    """The file has a line that is none of suppressions."""


class Suppressions:
    def __init__(self, names: list[str]) -> None:
        # a name is a part of a function or a file; `*` is any text, and `^` and `$` are its ends
        self._names = [re.compile(re.escape(it).replace(r"\*", ".*").replace(r"\^", "^").replace(r"\$", "$")) for it in names]

    def __bool__(self) -> bool:
        return bool(self._names)

    def matches(self, frames: list[Frame]) -> bool:
        texts = [text for it in frames for text in (it.function, (it.line or "").rsplit(":", 1)[0]) if text]
        return any(name.search(text) for name in self._names for text in texts)


NO_SUPPRESSIONS = Suppressions([])


def read_suppressions(path: str) -> Suppressions:
    names = []
    with open(path, encoding="utf-8") as file:
        for number, line in enumerate(file, 1):
            text = line.partition("#")[0].strip()
            if text and not re.match(r"deadlock:\S", text):
                raise BadSuppressions(f"{path}:{number}: write 'deadlock:NAME'")
            names += [text[9:]] * bool(text)
    return Suppressions(names)
