"""Compares what came of programs over the system's libraries with what came of them over ours.

Much of a log differs from run to run: a frame ends before or after a request comes. Two runs may agree where a third one does not, of whichever
library. So where ours differs, all run again, and where more runs over the system's libraries agree, one of ours has to."""

from typing import NamedTuple

import running
from columns import ITSELF, RUNS_ON

ATTEMPTS = 6  # by chance alone, ours is the one that differs in each of them in one of 3 * 5 * 7 * 9 * 11 * 13 cases


def difference(theirs, ours, is_whole):
    """The first place where a log differs from those over the system's libraries, as far as these agree."""
    first, *others = theirs
    alike = next((at for at, lines in enumerate(zip(*theirs)) if len(set(lines)) > 1), min(map(len, theirs)))
    is_same = is_whole and all(it == first for it in others)
    # What was stopped may have come less far.
    end = max(alike, len(ours)) if is_same else alike if is_whole or 4 * len(ours) <= alike else min(alike, len(ours))
    for at in range(end):
        one, two = (lines[at] if at < len(lines) else "(the end)" for lines in (first, ours))
        if one != two:
            return f"line {at + 1} of {alike}: {two}, not {one}", end, max(map(len, theirs))
    return None, end, max(map(len, theirs))


def shortened(value, other):
    """What is to be seen of a value: of lists, what the other one has not."""
    return repr([it for it in value if it not in other] if isinstance(value, list) else value)[:1000]


class Verdict(NamedTuple):
    """What is wrong with a run, by what was compared; in words what that was, and how many messages and pictures."""
    wrong: dict
    said: list = []
    messages: int = 0
    pictures: int = 0


def compare(theirs, ours):
    """A run beside those over the system's libraries."""
    first, wrong, said = theirs[0], {"run": it for it in ours.faults}, [f"status {theirs[0].status}"]
    words = {"status": "", "output": f"output of {len(first.output)} bytes", "errors": f"{len(first.errors)} lines of errors", "picture": "a picture"}
    for what, text in words.items():
        value, own = getattr(first, what), getattr(ours, what)
        if value is not None and all(getattr(it, what) == value for it in theirs):
            if own != value:
                wrong[what] = f"{shortened(own, value)}, not {shortened(value, own)}"
            said += [text] if value and text else []
    pictures = said.count("a picture")
    is_compared, messages, does_rest = len(said) > 1, 0, all(it.rests for it in theirs)
    if does_rest and not ours.rests:
        wrong["rest"] = "it does not come to it"
    for name in first.logs:
        found, end, most = difference([it.logs.get(name, []) for it in theirs], ours.logs.get(name, []), does_rest and ours.rests)
        if found:
            wrong[name] = found
        messages += end
        said += [f"{name} {end} of {most} lines"] if most else []
    if not is_compared and messages == 0 and first.status == RUNS_ON:
        wrong["run"] = "nothing is compared"
    return Verdict(wrong, said, messages, pictures)


class Judge:
    """Compares the programs of one compositor in all pairings."""

    def __init__(self, compositor, programs, begin):
        self.compositor, self.programs, self.begin = compositor, programs, begin
        self.theirs, self.verdicts = [], {}

    def attempt(self, wanted):
        """Runs what is wanted in each pairing, and twice over the system's libraries. Whether it starts there."""
        programs = [it for it in self.programs if any(it in chosen for chosen in wanted.values())]
        theirs = [self.begin(self.compositor, None, programs) for _ in range(2)]
        ours = {pairing: self.begin(self.compositor, pairing, chosen) for pairing, chosen in wanted.items()}
        self.theirs += [it.result() for it in theirs]
        for pairing, runs in ours.items():
            self.take(pairing, runs.result(), [*(it.name for it in wanted[pairing]), ITSELF])
        return None not in self.theirs

    def over_the_system(self, name):
        return [it[name] for it in self.theirs if it and name in it]

    def take(self, pairing, runs, names):
        for it in names if all(self.theirs) else []:
            before = self.verdicts.get((pairing, it))
            verdict = compare(self.over_the_system(it), runs[it]) if runs else Verdict({"run": "it does not start"})
            wrong = {what: text for what, text in verdict.wrong.items() if not before or what in before.wrong}
            self.verdicts[pairing, it] = verdict._replace(wrong=wrong)

    def still_wrong(self, wanted):
        wrong = {pairing: [it for it in chosen if self.verdicts[pairing, it.name].wrong] for pairing, chosen in wanted.items()}
        return {pairing: chosen for pairing, chosen in wrong.items() if chosen or self.verdicts[pairing, ITSELF].wrong}

    def judged(self):
        """A line for each check, with whether it holds; and the verdicts."""
        wanted = {pairing: [it for it in self.programs if pairing in it.pairings] for pairing in running.PAIRINGS}
        wanted = {pairing: chosen for pairing, chosen in wanted.items() if chosen}
        for _ in range(ATTEMPTS):
            if not self.attempt(wanted):
                return [(None, f"{self.compositor.name}: passed over, it does not start over the system's libraries")], []
            wanted = self.still_wrong(wanted)
            if not wanted:
                break
        return list(self.lines()), self.verdicts.values()

    def lines(self):
        for it in self.programs:
            if self.compositor.name in it.serving and all(run.status != 0 for run in self.over_the_system(it.name)):
                yield False, f"{self.compositor.name}, {it.name}: over the system's libraries it fails"
        for name in [*(it.name for it in self.programs), ITSELF]:
            for pairing in running.PAIRINGS:
                if (pairing, name) in self.verdicts:
                    it = self.verdicts[pairing, name]
                    found = "; ".join(f"{what}: {text}" for what, text in it.wrong.items()) or "alike"
                    yield not it.wrong, f"{self.compositor.name}, {name}, {pairing}: {found} ({', '.join(it.said)})"
