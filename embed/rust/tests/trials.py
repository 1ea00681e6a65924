"""Parts of tools/try-rust over the programs of trials/: each is a function of the crates. PROTOCOLS are the crates that have protocol files."""

import concurrent.futures
import contextlib
import os
import random
import re
import shutil
import socket
import struct
import subprocess
import tempfile

from trying import cargo_tests, check, counted, left_out, messages_of, program, run, same, wait_for

SIDES = ("original", "ours")
# Of server and client. The first is what the others are compared with.
PAIRS = [(server, client) for server in SIDES for client in SIDES]
PROTOCOLS = ("wayland-client", "wayland-protocols", "wayland-protocols-misc", "wayland-protocols-plasma", "wayland-protocols-wlr")


def of_pairs(run_pair):
    """What `run_pair` answers for each pair, at the same time."""
    with concurrent.futures.ThreadPoolExecutor(len(PAIRS)) as pool:
        return list(pool.map(lambda pair: run_pair(*pair), PAIRS))


# ---- every message


def messages(crates):
    """Every request and every event of all protocol files."""
    logs = of_pairs(lambda server, client: exchange(crates, server, client))
    asked = logs[0][1][1]
    summary = next((re.fullmatch(r"(\d+) interfaces, (\d+) requests, (\d+) events", line) for line in asked if " interfaces, " in line), None)
    found = [int(it) for it in summary.groups()] if summary else [0, 0, 0]
    check(f"there are {found[0]} interfaces with {found[1]} requests and {found[2]} events", found[0] > 200 and found[1] > 500 and found[2] > 400)
    files = [line for line in asked if re.match(r"\d+ files, left out", line)]
    check(f"none of the {files and files[0].split()[0]} files is left out", files and files[0].endswith("left out []"))
    check("each could be sent, by either side", all(any(line.startswith("cannot send 0") for line in it[1]) for log in logs for it in log))
    check("no descriptor is left", all("descriptors that are left: 0" in it[1] for log in logs for it in log))
    for place, whose in enumerate(("server", "client")):
        lines = len(logs[0][place][1])
        same(f"the {whose} tells the same {lines} lines in each of the four pairs of backends", [log[place] for log in logs])


def exchange(crates, server, client):
    """What a server and a client told: of each its status and lines."""
    with tempfile.TemporaryDirectory() as folder:
        path = f"{folder}/socket"
        command = [program(crates, server, "messages"), "serve", path]
        with subprocess.Popen(command, stdout=subprocess.PIPE, stderr=subprocess.STDOUT, text=True) as serving:
            wait_for(lambda: os.path.exists(path), serving)
            status, asked = run(program(crates, client, "messages"), "ask", path, seconds=60)
            try:
                served = serving.communicate(timeout=20)[0]
            except subprocess.TimeoutExpired:
                serving.kill()
                served = serving.communicate()[0] + "(did not end)\n"
        return (serving.returncode, served.splitlines()), (status, asked.splitlines())


# ---- a desktop

# Smithay's toolkit has these, which need no GPU and no image. What is drawn by relative_pointer is left out: its crates are not packaged.
TOOLKIT = ("data_device", "generic_list_seats", "generic_simple_window", "list_outputs", "list_seats", "relative_pointer", "session_lock",
           "simple_layer", "simple_window", "themed_window")

# What is compared of each run, and how it is told.
COMPARED = {"requests": "sends the same {} requests", "events": "is told the same {} events", "served": "makes the desktop tell the same {} lines",
            "said": "prints the same {} lines"}


class Desktop:
    """A compositor of trials/, in a folder of its own."""

    def __init__(self, path, environment=None):
        self.folder = tempfile.mkdtemp()
        os.chmod(self.folder, 0o700)
        self.socket, self.log = f"{self.folder}/wayland-0", f"{self.folder}/log"
        with open(self.log, "wb") as log:
            self.process = subprocess.Popen([path, self.socket], stdin=subprocess.DEVNULL, stdout=log, stderr=log, env=environment)
        self.is_there = wait_for(lambda: self.said().startswith("ready\n"), self.process)

    def said(self):
        with open(self.log, encoding="utf-8", errors="replace") as log:
            return log.read()

    def descriptors(self):
        return len(os.listdir(f"/proc/{self.process.pid}/fd"))

    def lives(self):
        return self.process.poll() is None

    def close(self):
        self.process.kill()
        self.process.wait()
        shutil.rmtree(self.folder, ignore_errors=True)


def toolkit(crates):
    """Examples of Smithay's toolkit over a compositor with layers, locks, a seat, selections, and drag and drop."""
    if run("pkg-config", "--exists", "xkbcommon")[0] != 0:
        left_out("the toolkit over the desktop", "libxkbcommon-dev is not installed")
        return
    for name in TOOLKIT:
        if not os.path.exists(program(crates, "original", f"toolkit_{name}")):
            left_out(f"the toolkit's {name}", "its package does not have it")
            continue
        runs = of_pairs(lambda server, client: on_desktop(crates, server, client, name))
        check(f"{name}: the desktop lives, in each pair", all(it["lives"] for it in runs))
        for what, told in COMPARED.items():
            outcomes = [(it["status"], it[what]) for it in runs]
            # Some print nothing.
            if what != "said" or any(lines for _, lines in outcomes):
                same(f"{name} {told.format(len(outcomes[0][1]))}, in each pair", outcomes)


def on_desktop(crates, server, client, name):
    """One example over one compositor: what both told."""
    environment = {**os.environ, "RUST_BACKTRACE": "0", "RUST_LOG": "info"}
    environment.pop("WAYLAND_DEBUG", None)
    desktop = Desktop(program(crates, server, "desktop"), environment)
    environment.update(XDG_RUNTIME_DIR=desktop.folder, WAYLAND_DISPLAY="wayland-0", WAYLAND_DEBUG="client")
    try:
        command = [program(crates, client, f"toolkit_{name}")]
        with subprocess.Popen(command, stdin=subprocess.DEVNULL, stdout=subprocess.PIPE, stderr=subprocess.PIPE, env=environment) as process:
            try:
                said, printed = process.communicate(timeout=30)
            except subprocess.TimeoutExpired:
                process.kill()
                said, printed = process.communicate()
        status = None if process.returncode == -9 else process.returncode
        wait_for(lambda: "a client goes" in desktop.said(), desktop.process)
        shown = [re.sub(r"\bfd \d+", "fd", it) for it in messages_of(printed.decode(errors="replace"))]
        # The text of a backend for debugging is its own.
        said = re.sub(r"WeakBackend \{ (\w+: \(Weak\)|\w+: \w+ \{ \w+: \(Weak\) \}) \}", "WeakBackend", said.decode(errors="replace"))
        return {"status": status, "lives": desktop.lives(), "said": said.splitlines(),
                "served": without_pings(desktop.said().splitlines()), "requests": without_pings(it for it in shown if it.startswith("->")),
                "events": without_pings(it for it in shown if it.startswith("<-"))}
    finally:
        desktop.close()


def without_pings(lines):
    """The desktop pings to wait for what a client reads from a pipe. Where a pong falls beside that is up to how fast it is."""
    return [it for it in lines if not re.search(r"\.(ping|pong)\b", it)]


# ---- threads, queues, ends


def stress(crates):
    """A server of five threads, and clients that die in many ways."""
    lives, clients = ("5", "200") if crates.is_whole else ("3", "60")
    for when in ("later", "at_once", "racy"):
        counted(f"stress, frames done {when}", program(crates, "ours", "stress"), lives, clients, when, seconds=300)


def queues(crates):
    """One connection with many threads, each with an event queue."""
    for threads in ("8", "16"):
        counted(f"queues in {threads} threads", program(crates, "ours", "queues"), threads, "400" if crates.is_whole else "150", seconds=300)


def leak(crates):
    """Connections that come and go."""
    for side in SIDES:
        counted(f"leak ({side})", program(crates, side, "leak"), "5000" if crates.is_whole else "600", seconds=600)


# ---- mutated streams


def words(*all_words):
    return struct.pack(f"<{len(all_words)}I", *(it & 0xFFFFFFFF for it in all_words))


def message(sender, opcode, arguments=b""):
    return words(sender, 8 + len(arguments) << 16 | opcode) + arguments


def text(it):
    data = it.encode() + b"\0"
    return words(len(data)) + data + bytes(-len(data) % 4)


def bind(name, interface, version, number):
    return message(2, 0, words(name) + text(interface) + words(version, number))


def conversation():
    """What a client of the desktop may send: a window with a buffer, input, a selection, layers and a lock."""
    return [
        message(1, 1, words(2)),
        bind(1, "wl_compositor", 5, 3), bind(3, "wl_shm", 1, 4), bind(4, "wl_seat", 7, 5), bind(6, "wl_data_device_manager", 3, 6),
        bind(7, "xdg_wm_base", 5, 7), bind(5, "wl_output", 4, 8), bind(8, "zwlr_layer_shell_v1", 4, 9), bind(9, "ext_session_lock_manager_v1", 1, 10),
        message(3, 0, words(11)), message(7, 2, words(12, 11)), message(12, 1, words(13)),  # a surface, its xdg_surface and toplevel
        message(13, 2, text("a title")), message(13, 3, text("an.application")), message(11, 6),
        message(5, 0, words(14)), message(5, 1, words(15)),  # a pointer, a keyboard
        message(4, 0, words(16, 65536)), message(16, 0, words(17, 0, 10, 10, 40, 0)),  # a pool, which takes a descriptor, and a buffer
        message(11, 1, words(17, 0, 0)), message(11, 3, words(18)), message(11, 6),
        message(6, 1, words(19, 5)), message(6, 0, words(20)), message(20, 0, text("text/plain")), message(19, 1, words(20, 7)),
        message(3, 0, words(21)), message(9, 0, words(22, 21, 8, 2) + text("a layer")), message(21, 6),
        message(10, 1, words(23)), message(3, 0, words(24)), message(23, 1, words(25, 24, 8)),
        message(1, 0, words(26)), message(11, 0), message(14, 1), message(7, 3, words(1)),
    ]


# Numbers that are wrong in most places.
WRONG = (0, 1, 2, 3, 65535, 0x7FFFFFFF, 0x80000000, 0xFF000000, 0xFFFFFFFF)


def mutated(all_messages, chance):
    """One change of a stream: of a byte, a word, a length or the order."""
    place = chance.randrange(len(all_messages))
    data, kind = bytearray(all_messages[place]), chance.randrange(7)
    if kind == 0 and data:
        data[chance.randrange(len(data))] = chance.randrange(256)
    elif kind == 1 and len(data) >= 4:
        at = chance.randrange(len(data) // 4) * 4
        data[at:at + 4] = words(chance.choice(WRONG + (chance.randrange(30),)))
    elif kind == 2:
        del data[chance.randrange(len(data) + 1):]
    elif kind == 3:
        data += chance.randbytes(chance.randrange(20))
    other = chance.randrange(len(all_messages))
    changed = [*all_messages[:place], bytes(data), *all_messages[place + 1:]]
    if kind == 4:
        changed[place], changed[other] = changed[other], changed[place]
    elif kind == 5:
        changed.insert(place, changed[other])
    elif kind == 6:
        del changed[place]
    return changed


def send_mutated(path, chance):
    """A connection whose stream is changed, and cut into parts; the first one brings descriptors."""
    stream = conversation()
    for _ in range(chance.randrange(5)):
        stream = mutated(stream, chance)
    data = b"".join(stream)
    cuts = sorted(chance.randrange(len(data) + 1) for _ in range(chance.randrange(4)))
    null = os.open("/dev/null", os.O_RDONLY)
    with socket.socket(socket.AF_UNIX) as client, contextlib.suppress(OSError):
        client.connect(path)
        descriptors = [null] * chance.choice((0, 1, 1, 1, 2, 5, 28))
        for begin, end in zip([0, *cuts], [*cuts, len(data)], strict=True):
            if begin < end:
                socket.send_fds(client, [data[begin:end]], descriptors)
                descriptors = []
        if chance.randrange(3) == 0:
            client.settimeout(0.02)
            client.recv(65536)
    os.close(null)


def answers(path):
    """Whether the desktop tells a client of its globals."""
    with socket.socket(socket.AF_UNIX) as client, contextlib.suppress(OSError):
        client.settimeout(20)
        client.connect(path)
        client.sendall(message(1, 1, words(2)))
        return b"wl_compositor" in client.recv(65536)
    return False


def fuzz(crates):
    """Streams that are changed anywhere, to the desktop over the drop-in."""
    count = 5000 if crates.is_whole else 600
    desktop = Desktop(program(crates, "ours", "desktop"), {**os.environ, "RUST_BACKTRACE": "0"})
    try:
        if not check("the desktop starts", desktop.is_there):
            return
        chance, before, sent = random.Random(7), desktop.descriptors(), 0
        while sent < count and desktop.lives():
            send_mutated(desktop.socket, chance)
            sent += 1
        check(f"it lives after {sent} of {count} mutated streams", desktop.lives() and sent == count) or print(desktop.said()[-3000:])
        wanted = wait_for(lambda: desktop.said().count("a client goes") >= count, desktop.process)
        said = desktop.said()
        check("it was told of the end of each", wanted and said.count("a client goes") == said.count("a client comes") == count)
        check("some were ended for what they sent", said.count("ProtocolError") > count // 10)
        check("most get as far as a surface", len(re.findall(r"create_surface$", said, re.M)) > count)
        check("it has as many descriptors as before", wait_for(lambda: desktop.descriptors() == before, desktop.process)) or print(
            f"{before} before, {desktop.descriptors()} now")
        check("and it answers another client", desktop.lives() and answers(desktop.socket))
    finally:
        desktop.close()


# ---- a library for the clipboard


def clipboard(crates):
    """The tests of wl-clipboard-rs, a client over a server, both over the same backend."""
    for side in SIDES:
        folder = f"{crates.build}/clipboard/{side}"
        shutil.rmtree(folder, ignore_errors=True)
        shutil.copytree(crates.package("wl-clipboard-rs"), folder, ignore=shutil.ignore_patterns("debian", ".cargo-checksum.json"))
        patch = f'[patch.crates-io]\nwayland-backend = {{ path = "{crates.drop_in}" }}\n' if side == "ours" else ""
        with open(f"{folder}/Cargo.toml", "a", encoding="utf-8") as manifest:
            manifest.write(f"\n[workspace]\n{patch}")
        cargo_tests(f"the tests of wl-clipboard-rs ({side})", *crates.cargo("test", "--lib", target=side, cwd=folder))
