#!/usr/bin/env python3
"""Writes parking_lot's own tests of its mutex, condition variable and locks as tests of the crate proved_lock.

usage: .ci/parking_lot_tests.py SRC TESTS     SRC is the src/ of parking_lot. Tests of what proved_lock lacks are left out,
and the tests of queues send a hundredth of the messages.
"""
import pathlib
import re
import sys

SRC, TESTS = map(pathlib.Path, sys.argv[1:])
LACKS = r"read_recursive|serialize|fn two_mutexes\(|wait_while_until_internal"
QUEUES = "/// This module contains an integration test"

for name in ("mutex", "condvar", "rwlock", "remutex"):
    text = (SRC / f"{name}.rs").read_text(encoding="utf-8")
    text, mark, queues = text.replace("use crate::", "use proved_lock::").partition(QUEUES)
    body = text[text.index("mod tests {") + len("mod tests {"):text.rindex("}")]
    body = re.sub(r"^ *#\[cfg\(feature = \"serde\"\)\]\n(?: *use .*\n)?", "", body, flags=re.M)
    head, *tests = re.split(r"^(?=    #\[test\])", body, flags=re.M)
    queues = re.sub(r"(messages_per_producer: [\d_]*?)_?00,", r"\1,", queues)
    kept = [it for it in tests if not re.search(LACKS, it)]
    (TESTS / f"parking_lot_{name}.rs").write_text("#![allow(warnings, clippy::all)]\n" + head + "".join(kept) + mark + queues, encoding="utf-8")
