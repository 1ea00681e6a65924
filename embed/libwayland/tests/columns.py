"""A column of the table of `programs`: a compositor over some libraries, in a folder of its own, with programs that come one after the other.

A program has a HOME of its own, where its logs are: program.log, which has its errors, and what a script writes into others."""

import contextlib
import hashlib
import math
import os
import re
import shutil
import signal
import subprocess
import tempfile
import threading
import time
from typing import NamedTuple

import logs
import running

HERE = os.path.dirname(os.path.realpath(__file__))
RUNS_ON = "runs on"

stopping = threading.Event()  # no program is started any more

OF_COMPOSITORS = {"WLR_BACKENDS": "headless", "WLR_RENDERER": "pixman", "WLR_LIBINPUT_NO_DEVICES": "1", "WAYLAND_DEBUG": "server",
                  "KWIN_SCREENSHOT_NO_PERMISSION_CHECKS": "1"}
OF_PROGRAMS = {"GDK_BACKEND": "wayland", "QT_QPA_PLATFORM": "wayland", "SDL_VIDEODRIVER": "wayland", "NO_AT_BRIDGE": "1", "GTK_A11Y": "none",
               "DBUS_SESSION_BUS_ADDRESS": "disabled:", "GSETTINGS_BACKEND": "memory", "NO_COLOR": "1", "WAYLAND_DEBUG": "1"}


class Compositor(NamedTuple):
    """How a compositor is started. In its words FOLDER stands for its folder, where the files are."""
    name: str
    words: list
    picture: list = None  # what takes a picture of it, into the folder in which it runs
    files: dict = {}
    inside: object = None  # the compositor whose client it is
    has_bus: bool = False  # it wants a bus of D-Bus
    has_x: bool = False  # its log says on which display X clients are served


class Program(NamedTuple):
    """A command; the compositors and pairings in which it runs."""
    name: str
    words: list
    over: tuple  # names
    pairings: tuple = tuple(running.PAIRINGS)
    serving: tuple = ()  # over these it has to end with the status 0: else nothing would be compared but a refusal
    ends: bool = False  # by itself, so that its end is waited for
    seconds: float = 15  # the most that it runs if it neither ends nor comes to rest
    is_pictured: bool = False
    needs: tuple = ()  # what has to be installed, if it is not the first word
    is_of_x: bool = False
    by_runner: bool = False  # over ours it is started by numbyroga-run, which finds the libraries that lie beside it


# ---- a column


QUIET = 0.5  # seconds without a line in a log, after which a program that waits has come to rest: longer than any frame
PICTURE_SECONDS = 15  # the most that it takes until two pictures in a row are the same
ITSELF = "itself"  # in the place of a program: the compositor, how it ends


class Run(NamedTuple):
    """What came of a program: its status, what it printed, the lines of its errors in the order of letters, since several threads print them,
    the messages of each log, a picture; whether it has ended or come to rest; and what was wrong with the run itself."""
    status: object
    output: str = ""
    errors: list = []
    logs: dict = {}
    picture: str = None
    rests: bool = True
    faults: list = []


class Column:
    """A compositor that runs over some libraries, in a folder of its own, to which programs come."""

    def __init__(self, compositor, library, folder, user, started):
        self.compositor, self.library, self.folder, self.user = compositor, library, folder, user
        self.process, self.socket, self.path = started
        self.log, self.empty = logs.Log(self.path), None

    def home(self):
        home = tempfile.mkdtemp(dir=self.folder)
        running.give(home, self.user)
        return home

    def environment(self, home, **more):
        return environment(self.library, self.folder, home, WAYLAND_DISPLAY=self.socket, **OF_PROGRAMS, **more)

    def display(self):
        with open(self.path, encoding="utf-8", errors="replace") as file:
            found = re.search(r"listening on display (:\d+)", file.read())
        return found[1] if found else ""

    def come_to_rest(self, quiet, most=10, process=None, paths=lambda: []):
        """Waits until a process has ended, or no log has grown for a while, and then nobody here has anything to do. Returns whether it came
        to that in time."""
        size, since, until = None, 0, time.monotonic() + most
        while (now := time.monotonic()) < until:
            if process and process.poll() is not None:
                return True
            before, size = size, sum(map(os.path.getsize, [*paths(), self.path]))
            if size != before or (now > since + quiet and running.is_busy(self.folder)):
                since = now
            elif now > since + quiet:
                return True
            time.sleep(0.05)
        return False

    def picture(self):
        """What the compositor shows, in a few letters; None if it cannot be had."""
        home = self.home()
        with contextlib.suppress(subprocess.TimeoutExpired):
            subprocess.run(self.compositor.picture, env=self.environment(home), cwd=home, stdin=subprocess.DEVNULL, stdout=subprocess.DEVNULL,
                           stderr=subprocess.DEVNULL, timeout=20, check=False, **self.user)
        for it in os.listdir(home):
            if it == "picture" or it.endswith(".png"):
                with open(f"{home}/{it}", "rb") as file:
                    return hashlib.sha256(file.read()).hexdigest()[:12]
        return None

    def settled(self, process):
        """The picture to which a program comes: another one than that without it, twice in a row."""
        last, until = None, time.monotonic() + PICTURE_SECONDS
        while process.poll() is None and time.monotonic() < until:
            now = self.picture()
            if now and now == last and now != self.empty:
                return now
            last = now
            time.sleep(0.3)
        return None

    def number(self):
        """That of the compositor's process, which may be another's child."""
        name = self.compositor.words[0][:15]
        return next((it for it in running.inhabitants(self.folder) if running.name_of(it) == name), self.process.pid)

    def ended(self):
        """Asks the compositor to end. Returns its status. Cage 0.1.4 ends with its first client: when it gets a signal, it hands another
        pointer to wl_display_terminate than that to its display."""
        if os.path.exists(f"{self.folder}/end"):
            with contextlib.suppress(OSError):
                os.close(os.open(f"{self.folder}/end", os.O_WRONLY | os.O_NONBLOCK))
        else:
            os.kill(self.number(), signal.SIGTERM)
        with contextlib.suppress(subprocess.TimeoutExpired):
            return self.process.wait(10)
        return "it does not end"


def environment(library, folder, home, **more):
    """All the variables of a process: of the caller's it has only where programs are."""
    return {"PATH": os.environ["PATH"], "LANG": "C.UTF-8", "HOME": home, "TMPDIR": home, "XDG_RUNTIME_DIR": folder, "LIBGL_ALWAYS_SOFTWARE": "1",
            **({"LD_LIBRARY_PATH": library} if library else {}), **more}


@contextlib.contextmanager
def started(it, library, folder, user):
    """A compositor in a folder, and the one around it: a column, whose socket is None if it does not start."""
    variables = dict(OF_COMPOSITORS)
    os.makedirs(folder, 0o700, exist_ok=True)
    running.give(folder, user)
    with contextlib.ExitStack() as stack:
        if it.inside:
            around = stack.enter_context(started(it.inside, library, f"{folder}/outer", user))
            variables["WAYLAND_DISPLAY"] = f"{around.folder}/{around.socket}"
        for file, text in it.files.items():
            with open(f"{folder}/{file}", "w", encoding="utf-8") as out:
                out.write(text)
        words = [word.replace("FOLDER", folder) for word in it.words]
        words[0] = running.without_rights(shutil.which(words[0]), folder)
        if it.has_bus:
            words = ["dbus-run-session", "--", "sh", "-c", 'echo $DBUS_SESSION_BUS_ADDRESS > $XDG_RUNTIME_DIR/bus; exec "$@"', "-", *words]
        column = Column(it, library, folder, user, stack.enter_context(
            running.compositor(words, environment(library, folder, folder, **variables), folder, "compositor", user=user)))
        if column.socket:
            column.come_to_rest(QUIET)
        yield column


def read(path):
    with open(path, encoding="utf-8", errors="replace") as file:
        return file.read()


def begun(column, program, home):
    """Starts a program. Returns its process, and the folder with the libraries that it has to have."""
    library, words, more = column.library, program.words, running.told_by_loader(home)
    if program.is_of_x:
        more["DISPLAY"] = column.display()
    if library and program.by_runner:
        library = f"{home}/build"
        shutil.copytree(column.library, library)
        more["LD_LIBRARY_PATH"] = ""
        words = [shutil.copy(f"{HERE}/../numbyroga-run", home), *words]
    with open(f"{home}/output", "wb") as out, open(f"{home}/program.log", "wb") as err:
        return subprocess.Popen(words, env={**column.environment(home), **more}, cwd=home, stdout=out, stderr=err, stdin=subprocess.DEVNULL,
                                start_new_session=True, **column.user), library


def run(column, program):
    """Runs a program to its end, or until it has come to rest, or its time is up. Of one that runs on, the logs are those until then: what
    comes later, and for the pictures, is left out."""
    home = column.home()
    if program.is_pictured and column.compositor.picture and not column.empty:
        column.empty = column.picture()
    column.log.taken()
    process, library = begun(column, program, home)
    paths = lambda: [f"{home}/{it}" for it in sorted(os.listdir(home)) if it.endswith(".log")]
    rests = column.come_to_rest(math.inf if program.ends else QUIET, program.seconds, process, paths)
    status = RUNS_ON if process.poll() is None else process.returncode
    if status != RUNS_ON:
        column.come_to_rest(0.1)
    texts = {os.path.basename(it): logs.split(read(it)) for it in paths()}
    told = {name: logs.messages(lines) for name, (lines, _) in texts.items()} | {"compositor.log": column.log.taken()}
    picture = column.settled(process) if column.empty and program.is_pictured else None
    running.end(process, home)
    column.come_to_rest(0.1)
    hide = lambda text: re.sub(r"\d+", "N", text.replace(home, "HOME").replace(column.folder, "FOLDER"))
    errors = sorted(hide(f"{name}: {line}") for name, (_, lines) in texts.items() for line in lines)
    output = read(f"{home}/output")
    return Run(status, hide(output) if status == RUNS_ON else output, errors, told, picture, rests,
               faults_of(running.loaded(home), library, None if program.is_of_x else "client"))


def faults_of(paths, library, side):
    """Whether a process has loaded the libraries that it had to, among them that of the side."""
    return [] if running.is_over(paths, library, side) else [f"it has loaded {', '.join(sorted(paths)) or 'no libwayland'}"]


def column_of(compositor, library, programs, top, user):
    """What came of each program over a compositor, and of the compositor itself; None if it does not start."""
    folder = tempfile.mkdtemp(dir=top)
    with started(compositor, library, folder, user) as column:
        if not column.socket:
            return None
        runs = {it.name: run(column, it) for it in programs if not stopping.is_set()}
        if column.process.poll() is None:
            faults = faults_of(running.mapped(column.number()), library, "server")
            runs[ITSELF] = Run(column.ended(), faults=faults)
        else:
            runs[ITSELF] = Run(column.process.returncode, faults=["it has ended before"])
    shutil.rmtree(folder, ignore_errors=True)
    return runs
