"""What a program says with WAYLAND_DEBUG, to be compared line by line with what it says behind the guard: without the lines of globals that a
policy hides, and without what differs from run to run. For that it has the code of embed/libwayland/tests/logs.py."""

import importlib.util
import os
import re
import sys

from traffic import opened, rows

LOGS = f"{os.path.dirname(os.path.realpath(__file__))}/../../libwayland/tests/logs.py"

TIME = re.compile(r"^\[ *\d+\.\d+\] ")
LINE = re.compile(r"\[ *\d+\.\d+\] (?:discarded )?(?: -> )?([^\s@]+)@\d+\.(\w+)\(")
GLOBAL = re.compile(r'(\.(?:global|bind)\()(\d+)(, "([^"]*)", )(\d+)')


def module(path):
    spec = importlib.util.spec_from_file_location("logs_of_libwayland", os.path.realpath(path))
    loaded = importlib.util.module_from_spec(spec)
    written, sys.dont_write_bytecode = sys.dont_write_bytecode, True
    spec.loader.exec_module(loaded)
    sys.dont_write_bytecode = written
    return loaded


messages = module(LOGS).messages


def through_policy(lines, policy, files):
    """The lines that are left through a policy: those of allowed globals, and of objects whose interfaces it opens. A version above the
    policy's is the policy's, and the numbers of globals are hidden."""
    allowed, names = opened(policy, rows(files))
    shown, out = set(), []
    for line in lines:
        found = LINE.match(line)
        if found[1] not in names:
            continue
        if found[1] == "wl_registry" and (named := GLOBAL.search(line)):
            if named[4] not in allowed:
                shown.discard(named[2])
                continue
            shown.add(named[2])
            line = GLOBAL.sub(rf"\g<1>N\g<3>{min(int(named[5]), int(allowed[named[4]]))}", line)
        elif found[1] == "wl_registry" and (removed := re.search(r"\.global_remove\((\d+)\)", line)):
            if removed[1] not in shown:
                continue
            line = line.replace(f"({removed[1]})", "(N)")
        out.append(line)
    return out


def lines_of(text, policy=None, files=()):
    """The lines of a log, as they are to be compared. Without a policy none is taken out."""
    lines = [it for it in text.splitlines() if LINE.match(it)]
    return messages(TIME.sub("", it) for it in (through_policy(lines, policy, files) if policy else lines))


def difference(theirs, ours, runs_on):
    """How many lines these logs have in common from their begin, and the first of them that is another one in ours, if one is. A program that
    runs on until it is ended may have come less far."""
    count = 0
    while count < min(map(len, theirs)) and all(it[count] == theirs[0][count] for it in theirs):
        count += 1
    if runs_on and 4 * len(ours) > count:
        count = min(count, len(ours))
    for at in range(count):
        there = ours[at] if at < len(ours) else "(the end)"
        if there != theirs[0][at]:
            return count, f"line {at + 1} of {count}: {there}, not {theirs[0][at]}"
    return count, None
