"""Processes over libwayland: over which libraries they run, in which folder, with which socket, and how all of them end.

`programs` and tools/try-libwayland use it."""

import contextlib
import os
import pwd
import re
import shutil
import signal
import subprocess
import tempfile
import time

# The libraries that are ours, the others are the system's.
PAIRINGS = {"server": ("server",), "client": ("client",), "both": ("server", "client")}
LIBRARY = r"libwayland-(?:server|client)\.so"


@contextlib.contextmanager
def halves(build):
    """A folder with each of the libraries in a folder alone, and one with both: copies, which every user can read."""
    with tempfile.TemporaryDirectory() as top:
        os.chmod(top, 0o755)
        folders = {pairing: f"{top}/{pairing}" for pairing in PAIRINGS}
        for pairing, folder in folders.items():
            os.mkdir(folder)
            os.chmod(folder, 0o755)
            for side in PAIRINGS[pairing]:
                shutil.copy(f"{build}/libwayland-{side}.so.0", folder)
        yield folders


def over(library, **more):
    """The environment in which programs run over a folder's libraries, or over the system's if there is none."""
    found = {name: value for name, value in os.environ.items() if not name.startswith(("WAYLAND_", "LD_"))}
    return {**found, **({"LD_LIBRARY_PATH": library} if library else {}), **more}


def other_user():
    """For programs that refuse to run as root: what makes a process that of a user without rights."""
    if os.getuid() != 0:
        return {}
    nobody = pwd.getpwnam("nobody")
    return {"user": nobody.pw_uid, "group": nobody.pw_gid, "extra_groups": []}


def give(path, user):
    if user:
        os.chown(path, user["user"], user["group"])


def without_rights(path, folder):
    """A program, or a copy of one with capabilities, which has none: for the other one the system would load its own libraries."""
    if not shutil.which("getcap") or not subprocess.run(["getcap", os.path.realpath(path)], stdout=subprocess.PIPE, check=False).stdout:
        return path
    return shutil.copy(os.path.realpath(path), folder)


# ---- which libraries a process has


def is_over(paths, library, side):
    """Whether of these libraries those that a folder has are the folder's, and that of the side is among them, if there is a side."""
    stem = lambda path: os.path.basename(path).partition(".so")[0]
    ours = {stem(it) for it in os.listdir(library)} if library else set()
    return all(os.path.dirname(it) == library for it in paths if stem(it) in ours) and (not side or f"libwayland-{side}" in map(stem, paths))


def mapped(number):
    """The libraries that a process has."""
    with open(f"/proc/{number}/maps", encoding="utf-8") as maps:
        return set(re.findall(rf"/\S*{LIBRARY}\S*", maps.read()))


def told_by_loader(folder):
    """The variables that make the system's loader tell what it loads."""
    return {"LD_DEBUG": "files", "LD_DEBUG_OUTPUT": f"{folder}/loaded"}


def loaded(folder):
    """The libraries that programs have loaded, as the loader has told."""
    found = set()
    for it in filter(re.compile(r"loaded\.\d+").fullmatch, os.listdir(folder)):
        with open(f"{folder}/{it}", encoding="utf-8", errors="replace") as file:
            found.update(re.findall(rf"calling init: (/\S*/{LIBRARY}\S*)", file.read()))
    return found


# ---- from the start to the end


def inhabitants(folder):
    """The processes with a variable that is this folder: all that were started for it, whatever they have become."""
    for number in filter(str.isdigit, os.listdir("/proc")):
        with contextlib.suppress(OSError):
            with open(f"/proc/{number}/environ", "rb") as file:
                if folder.encode() in (it.partition(b"=")[2] for it in file.read().split(b"\0")):
                    yield int(number)


def name_of(number):
    with contextlib.suppress(OSError):
        with open(f"/proc/{number}/comm", encoding="utf-8", errors="replace") as file:
            return file.read().strip()
    return None


def is_busy(folder):
    """Whether a process of a folder runs, or would if the machine had time for it."""
    for number in inhabitants(folder):
        with contextlib.suppress(OSError):
            for thread in os.listdir(f"/proc/{number}/task"):
                with open(f"/proc/{number}/task/{thread}/stat", encoding="utf-8", errors="replace") as file:
                    if file.read().rpartition(") ")[2][0] in "RD":
                        return True
    return False


def end(process, folder, seconds=3):
    """Ends a process, and then all that was started in a folder. Returns the status of the process."""
    if process.poll() is None:
        process.send_signal(signal.SIGTERM)
    with contextlib.suppress(subprocess.TimeoutExpired):
        process.wait(seconds)
    status = process.poll()
    for _ in range(3):  # one may just have started another
        for number in inhabitants(folder):
            with contextlib.suppress(ProcessLookupError):
                os.kill(number, signal.SIGKILL)
    process.wait()
    return status


def listening():
    """The paths of the sockets to which one can connect now."""
    with open("/proc/net/unix", encoding="utf-8", errors="replace") as file:
        rows = [line.split(None, 7) for line in file]
    return {row[7].strip() for row in rows if len(row) == 8 and row[3] == "00010000"}


def socket_in(folder, name):
    """The name of the Wayland socket in a folder: one of this name, or one that a compositor chose."""
    paths = listening()
    return next((it for it in os.listdir(folder) if (it == name or re.fullmatch(r"wayland-\d+", it)) and f"{folder}/{it}" in paths), None)


@contextlib.contextmanager
def compositor(command, environment, folder, name, seconds=15, user=None):
    """Runs a compositor in a folder of its own. Gives the process, the name of its socket, or None if it does not start, and the file of
    its log."""
    log, socket = f"{folder}/{name}.log", None
    with open(log, "wb") as file:
        process = subprocess.Popen(command, env={**environment, "XDG_RUNTIME_DIR": folder}, cwd=folder, stdin=subprocess.DEVNULL, stdout=file,
                                   stderr=file, start_new_session=True, **(user or {}))
    until = time.monotonic() + seconds
    try:
        while not socket and time.monotonic() < until and process.poll() is None:
            time.sleep(0.05)
            socket = socket_in(folder, name)
        yield process, socket, log
    finally:
        end(process, folder, 10)
