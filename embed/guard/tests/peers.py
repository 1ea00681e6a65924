"""What stands on both sides of numbyroga-guard in its tests: a client and a compositor that send bytes as they are told, with no library
of Wayland's; and the guard between them. They know the protocol by its text alone."""

import array
import contextlib
import os
import select
import signal
import socket
import struct
import subprocess
import threading
import time

WAIT = 20  # seconds for what has to come


# ---- messages


def word(number):
    return struct.pack("=I", number & 0xFFFFFFFF)


def string(text):
    data = text.encode() + b"\0"
    return word(len(data)) + data + b"\0" * (-len(data) % 4)


def message(sender, opcode, *parts):
    body = b"".join(parts)
    return struct.pack("=II", sender, (8 + len(body)) << 16 | opcode) + body


def sync(number):
    return message(1, 0, word(number))


def get_registry(number):
    return message(1, 1, word(number))


def bind(registry, name, interface, version, number):
    return message(registry, 0, word(name), string(interface), word(version), word(number))


def announce(registry, name, interface, version):
    return message(registry, 0, word(name), string(interface), word(version))


def take_back(registry, name):
    return message(registry, 1, word(name))


def done(number):
    return message(number, 0, word(0)) + message(1, 1, word(number))


def split(data):
    """The whole messages at the front, as (sender, opcode, body), and the bytes behind them."""
    found = []
    while len(data) >= 8:
        sender, rest = struct.unpack_from("=II", data)
        if not 8 <= rest >> 16 <= len(data):
            break
        found.append((sender, rest & 0xFFFF, data[8:rest >> 16]))
        data = data[rest >> 16:]
    return found, data


def text_in(body, at):
    """The string at a place of a message's body, and the place behind it."""
    length = struct.unpack_from("=I", body, at)[0]
    return body[at + 4:at + 3 + length].decode(), at + 4 + (length + 3) // 4 * 4


def error_of(messages):
    """The text of the wl_display.error that stands last; None if none does."""
    if not messages or messages[-1][:2] != (1, 0):
        return None
    return text_in(messages[-1][2], 8)[0]


# ---- one side of a connection


class Peer:
    """A socket, with what came from it: the bytes, and the descriptors in order."""

    def __init__(self, connected):
        self.socket = connected
        self.data = b""
        self.descriptors = []
        self.is_over = False

    def send(self, data, descriptors=()):
        """Sends all, or fails. False if the other side has hung up."""
        extra = [(socket.SOL_SOCKET, socket.SCM_RIGHTS, array.array("i", descriptors))] if descriptors else []
        try:
            sent = self.socket.sendmsg([data], extra)
            self.socket.sendall(data[sent:])
        except OSError:
            return False
        return True

    def receive(self, seconds=WAIT):
        """Receives once. False if nothing came, or the other side has hung up."""
        if self.is_over or not select.select([self.socket], [], [], seconds)[0]:
            return False
        try:
            data, extra, _, _ = self.socket.recvmsg(65536, socket.CMSG_SPACE(253 * 4))
        except OSError:
            data, extra = b"", []
        for _, _, given in extra:
            self.descriptors += array.array("i", given[:len(given) // 4 * 4])
        self.data += data
        self.is_over = not data
        return bool(data)

    def until(self, holds, seconds=WAIT):
        """Receives until this holds of the messages that came, or nothing more comes. Returns them."""
        end = time.monotonic() + seconds
        while not holds(split(self.data)[0]) and time.monotonic() < end and self.receive(end - time.monotonic()):
            pass
        return split(self.data)[0]

    def rest(self, seconds=WAIT):
        """Receives to the end of the stream. Returns the messages that came; None if it does not end."""
        end = time.monotonic() + seconds
        while self.receive(max(0, end - time.monotonic())):
            pass
        return split(self.data)[0] if self.is_over else None

    def close(self):
        self.socket.close()
        for descriptor in self.descriptors:
            os.close(descriptor)
        self.descriptors = []


def connected(path):
    """A client of who listens there, once it does: a socket that is there may not listen yet."""
    client = socket.socket(socket.AF_UNIX)
    end = time.monotonic() + WAIT
    while True:
        try:
            client.connect(path)
            return Peer(client)
        except (ConnectionRefusedError, FileNotFoundError):
            if time.monotonic() > end:
                raise
            time.sleep(0.01)


# ---- the guard and its compositor


class Compositor:
    """Listens, and hands each client that connects to the test."""

    def __init__(self, path):
        self.path = path
        self.socket = socket.socket(socket.AF_UNIX)
        self.socket.bind(path)
        self.socket.listen(1024)

    def accept(self):
        self.socket.settimeout(WAIT)
        return Peer(self.socket.accept()[0])

    def close(self):
        self.socket.close()
        os.unlink(self.path)


class Announcer(threading.Thread):
    """A compositor that serves each client at once: it announces the same globals to each registry, answers each sync, and keeps what was
    bound. `binds` has (name, interface, version) of each bind that came to it."""

    def __init__(self, path, globals_):
        super().__init__(daemon=True)
        self.globals, self.binds, self.others = globals_, [], []
        self.listener = socket.socket(socket.AF_UNIX)
        self.listener.bind(path)
        self.listener.listen(1024)
        self.poll = select.epoll()
        self.poll.register(self.listener, select.EPOLLIN)
        self.clients = {}
        self.path, self.is_ended = path, False
        self.start()

    def run(self):
        while not self.is_ended:
            for number, _ in self.poll.poll(0.2):
                if number == self.listener.fileno():
                    peer = Peer(self.listener.accept()[0])
                    peer.registries = set()
                    self.clients[peer.socket.fileno()] = peer
                    self.poll.register(peer.socket, select.EPOLLIN)
                else:
                    self.serve(number)

    def serve(self, number):
        peer = self.clients[number]
        if not peer.receive(0):
            self.poll.unregister(number)
            del self.clients[number]
            peer.close()
            return
        messages, peer.data = split(peer.data)
        answer = b""
        for sender, opcode, body in messages:
            if (sender, opcode) == (1, 0):
                answer += done(struct.unpack("=I", body)[0])
            elif (sender, opcode) == (1, 1):
                registry = struct.unpack("=I", body)[0]
                peer.registries.add(registry)
                answer += b"".join(announce(registry, *it) for it in self.globals)
            elif sender in peer.registries:
                interface, at = text_in(body, 4)
                self.binds.append((struct.unpack_from("=I", body)[0], interface, struct.unpack_from("=I", body, at)[0]))
            else:
                self.others.append((sender, opcode, body))
        peer.send(answer)

    def close(self):
        self.is_ended = True
        self.join()
        self.listener.close()
        os.unlink(self.path)


class Guard:
    """numbyroga-guard at a socket of its own."""

    def __init__(self, program, folder, policy, server, *options, seconds=WAIT):
        self.path = f"{folder}/guard"
        self.errors = f"{folder}/errors"
        policy_file = f"{folder}/policy"
        with open(policy_file, "w", encoding="utf-8") as file:
            file.write(policy)
        with contextlib.suppress(FileNotFoundError):
            os.unlink(self.path)
        with open(self.errors, "ab") as errors:
            self.process = subprocess.Popen([program, "-p", policy_file, "-s", self.path, *options], stderr=errors,
                                            env={**os.environ, "WAYLAND_DISPLAY": server, "XDG_RUNTIME_DIR": folder})
        end = time.monotonic() + seconds
        while not os.path.exists(self.path) and self.process.poll() is None and time.monotonic() < end:
            time.sleep(0.01)

    def connect(self):
        return connected(self.path)

    def descriptors(self):
        """How many descriptors it has open."""
        return len(os.listdir(f"/proc/{self.process.pid}/fd"))

    def memory(self):
        """Its resident memory, in bytes."""
        with open(f"/proc/{self.process.pid}/statm", encoding="ascii") as file:
            return int(file.read().split()[1]) * os.sysconf("SC_PAGE_SIZE")

    def settles(self, holds, seconds=WAIT):
        end = time.monotonic() + seconds
        while not holds() and time.monotonic() < end:
            time.sleep(0.02)
        return holds()

    def close(self):
        """Ends it. Returns its status, and what it printed on its standard error."""
        self.process.send_signal(signal.SIGTERM)
        status = self.process.wait(WAIT)
        with open(self.errors, encoding="utf-8", errors="replace") as file:
            return status, file.read()
