"""What the parts of tools/try-rust share: how checks are counted, how programs are run, and how what they say is compared.

A comparison counts only if it compares something. If no program that is compared ends as it should, or none says anything, it fails:
`nothing_compared` is the one place that decides so. What cannot be tried here is left out by name instead.
"""

import difflib
import re
import subprocess
import time


class Counts:
    """Counts what held, what did not, and what was left out."""

    def __init__(self, show=True):
        self.passed, self.failed, self.names_left_out, self.show = 0, 0, [], show

    def say(self, *words):
        if self.show:
            print(*words, flush=True)

    def check(self, name, holds):
        self.add(name, int(bool(holds)), int(not holds))
        return holds

    def add(self, name, passed, failed):
        """Checks that were counted elsewhere. That none was counted is a failure."""
        failed += passed + failed == 0
        self.passed, self.failed = self.passed + passed, self.failed + failed
        self.say("FAILED" if failed else "ok    ", name)
        return not failed

    def left_out(self, name, why):
        self.names_left_out.append(name)
        self.say("      ", f"{name} is left out: {why}")

    def counted(self, name, status, said):
        """A program whose last line of its own is 'N passed, M failed'. Valgrind may say something after it."""
        *_, counts = [None, *re.finditer(r"^(\d+) passed, (\d+) failed$", said, re.M)]
        passed, failed = (int(counts[1]), int(counts[2])) if counts else (0, 0)
        failed += status != 0 and failed == 0
        if not self.add(f"{name}: {counts[0] if counts else f'status {status}'}", passed, failed):
            self.say("\n".join(line for line in said.splitlines() if not line.startswith("ok ")))

    def same(self, name, outcomes, ends=(0,)):
        """Whether programs ended alike and said the same. Each outcome is a status and lines; the first one is over the original."""
        nothing = nothing_compared(outcomes, ends)
        first = outcomes[0]
        differ = [it for it in outcomes[1:] if it != first]
        if self.check(name, not nothing and not differ):
            return True
        if nothing:
            self.say("       nothing is compared:", nothing)
        for status, lines in differ:
            self.say(f"       status {status}, with the original {first[0]}")
            self.say("\n".join(difference(first[1], lines)[:40]))
        return False


def nothing_compared(outcomes, ends=(0,)):
    """Why these outcomes compare nothing, each a status and what was said; None if they do."""
    if all(status not in ends for status, _ in outcomes):
        return f"none ends as it should, but with the statuses {', '.join(str(status) for status, _ in outcomes)}"
    if not any(said for _, said in outcomes):
        return "none says anything"
    return None


COUNTS = Counts()
check, left_out, same = COUNTS.check, COUNTS.left_out, COUNTS.same


def program(crates, side, name):
    return f"{crates.build}/target-{side}/debug/{name}"


def run(*command, seconds=120, **how):
    """Runs a command to its end. Returns its status, or None if it took too long, and what it printed."""
    how = {"stderr": subprocess.STDOUT, **how}
    try:
        ran = subprocess.run(command, stdin=subprocess.DEVNULL, stdout=subprocess.PIPE, timeout=seconds, **how)
        return ran.returncode, ran.stdout.decode(errors="replace")
    except subprocess.TimeoutExpired as late:
        return None, (late.stdout or b"").decode(errors="replace")


def counted(name, *command, **how):
    COUNTS.counted(name, *run(*command, **how))


def cargo_tests(name, status, said, wanted=None):
    """What cargo test printed, each test counted as a check."""
    results = re.findall(r"^test result: \w+\. (\d+) passed; (\d+) failed", said, re.M)
    good, bad = (sum(int(it[k]) for it in results) for k in (0, 1))
    is_good = status == 0 and bad == 0 and good > 0 and wanted in (None, good)
    told = f"{name}: {good} passed, {bad} failed" + (f" of {wanted}" if wanted else "")
    if not COUNTS.add(told, good, bad + (not is_good and bad == 0)):
        print(*[line for line in said.splitlines() if re.match(r"test .*FAILED|error|---- |thread '", line)][:60], sep="\n")
        print(said[-3000:])


def difference(original, ours):
    """The lines of either that the other has not, in order."""
    return [line for line in difflib.unified_diff(original, ours, n=0, lineterm="") if not re.match(r"(---|\+\+\+|@@)( |$)", line)]


def wait_for(holds, process, seconds=20):
    end = time.monotonic() + seconds
    while not holds():
        if process.poll() is not None or time.monotonic() > end:
            return False
        time.sleep(0.02)
    return True


def messages_of(said):
    """What WAYLAND_DEBUG printed, without times, the side, and the comma that the original has before the arguments."""
    return [way + message.replace(", (", "(", 1) for way, message in re.findall(r"^\[ *[\d.]+\]\[\w+\] (->|<-) (.*)", said, re.M)]
