"""What reached a compositor, recorded, and looked at by what a policy file and the protocol files say alone. It shares no code and no thought
with the guard: each object is of an interface that the policy opens, each bind is allowed, and no refused or ignored request is there."""

import array
import os
import re
import select
import socket
import struct
import threading
import time
import xml.etree.ElementTree


class Recorder(threading.Thread):
    """Stands before a compositor, hands all on, and keeps what went each way: a list of (is_event, bytes) for each connection."""

    def __init__(self, path, server):
        super().__init__(daemon=True)
        self.path, self.server, self.connections, self.threads, self.is_ended = path, server, [], [], False
        self.listener = socket.socket(socket.AF_UNIX)
        self.listener.bind(path)
        self.listener.listen(64)
        os.chmod(path, 0o777)
        self.start()

    def run(self):
        while not self.is_ended:
            if select.select([self.listener], [], [], 0.2)[0]:
                client = self.listener.accept()[0]
                server = socket.socket(socket.AF_UNIX)
                server.connect(self.server)
                kept = []
                self.connections.append(kept)
                self.threads.append(threading.Thread(target=self.serve, args=(client, server, kept), daemon=True))
                self.threads[-1].start()

    @staticmethod
    def serve(client, server, kept):
        other = {client: server, server: client}
        try:
            while True:
                for ready in select.select([client, server], [], [])[0]:
                    data, extra, _, _ = ready.recvmsg(65536, socket.CMSG_SPACE(253 * 4))
                    given = [array.array("i", it[2][:len(it[2]) // 4 * 4]) for it in extra]
                    if not data:
                        return
                    kept.append((ready is server, data))
                    try:
                        sent = other[ready].sendmsg([data], [(socket.SOL_SOCKET, socket.SCM_RIGHTS, it) for it in given])
                        other[ready].sendall(data[sent:])
                    except OSError:
                        pass  # It has hung up: what it said before is still to be read.
                    for it in given:
                        for descriptor in it:
                            os.close(descriptor)
        except OSError:
            pass
        finally:
            client.close()
            server.close()

    def take(self, seconds=10):
        """What went over the connections since the last call: the programs have ended, so it waits until all is read of them."""
        time.sleep(0.3)  # until the last one that connected is accepted
        for thread in self.threads:
            thread.join(seconds)
        taken = self.connections[:]
        self.threads.clear()
        self.connections.clear()
        return taken

    def close(self):
        self.is_ended = True
        self.join()
        self.listener.close()
        os.unlink(self.path)


def rows(files):
    """For each interface the argument lists of its requests and its events: pairs of name and arguments."""
    table = {}
    for file in files:
        for it in xml.etree.ElementTree.parse(file).getroot().findall("interface"):
            table[it.get("name")] = [[(m.get("name"), [(a.get("type"), a.get("interface")) for a in m.findall("arg")]) for m in it.findall(kind)]
                                     for kind in ("request", "event")]
    return table


def opened(policy, table):
    """The interfaces that objects may be of: those that are allowed, and what messages of these make."""
    allowed = dict(re.findall(r"^allow (\w+) (\d+)", policy, re.M))
    names, new = set(), {"wl_display", *allowed}
    while new:
        names |= new
        new = {i for name in names for messages in table.get(name, []) for _, arguments in messages for kind, i in arguments if kind == "new_id" and i} - names
    return allowed, names


def said_on(connections, policy, files):
    """What clients said to the compositor, to be compared with what they say behind a guard: how often they bound what the policy allows,
    up to its version; of which interfaces the policy opens they made objects; and how many frames they committed."""
    table = rows(files)
    allowed, names = opened(policy, table)
    binds, made, frames = {}, set(), 0
    for kept in connections:
        objects, left = {1: "wl_display"}, [b"", b""]
        for is_event, data in kept:
            data = left[is_event] + data
            while len(data) >= 8 and len(data) >= struct.unpack_from("=I", data, 4)[0] >> 16:
                sender, rest = struct.unpack_from("=II", data)
                body, data = data[8:rest >> 16], data[rest >> 16:]
                messages = table.get(objects.get(sender), ([], []))[is_event]
                if (rest & 0xFFFF) >= len(messages):
                    continue
                name, arguments = messages[rest & 0xFFFF]
                frames += (objects[sender], name) == ("wl_surface", "commit")
                at = 0
                for kind, interface in arguments:
                    if kind in ("string", "array") or (kind == "new_id" and interface is None):
                        length = struct.unpack_from("=I", body, at)[0]
                        text, at = body[at + 4:at + 3 + length].decode(errors="replace"), at + 4 + (length + 3) // 4 * 4
                        if kind == "new_id":
                            version, number = struct.unpack_from("=II", body, at)
                            objects[number], at = text, at + 8
                            if text in allowed:
                                bound = text, min(version, int(allowed[text]))
                                binds[bound] = binds.get(bound, 0) + 1
                    elif kind != "fd":
                        if kind == "new_id":
                            objects[struct.unpack_from("=I", body, at)[0]] = interface
                            if not is_event and interface in names:
                                made.add(interface)
                        at += 4
            left[is_event] = data
    return {"binds": binds, "made": made, "frames": frames}


def text_of(argument, body, at, objects):
    """An argument as libwayland prints it, where the next one stands, and the last string or number, for binds and delete_id."""
    kind, interface = argument
    if kind == "fd":
        return "fd N", at, None
    number = struct.unpack_from("=I", body, at)[0]
    signed = number - (number >> 31 << 32)
    if kind in ("string", "array"):
        data, end = body[at + 4:at + 4 + number], at + 4 + (number + 3) // 4 * 4
        if kind == "array":
            return f"array[{number}]", end, None
        if number == 0:
            return "nil", end, None
        return '"' + "".join(chr(it) if 32 <= it <= 126 else f"\\x{it:02x}" for it in data[:-1]) + '"', end, data[:-1].decode(errors="replace")
    texts = {"int": str(signed), "uint": str(number), "fixed": f"{'-' if signed < 0 else ''}{abs(signed) // 256}.{abs(signed) % 256 * 390625:08}",
             "object": f"{objects.get(number, '[unknown]')}@{number}" if number else "nil", "new_id": f"new id {interface or '[unknown]'}@{number}"}
    return texts[kind], at + 4, number


def lines_on(kept, files):
    """What was said on a connection, as libwayland before 1.23 prints it: the lines of the requests, and those of the events. A descriptor is
    `fd N`."""
    table = rows(files)
    objects, lines, left = {1: "wl_display"}, [[], []], [b"", b""]
    for is_event, data in kept:
        data = left[is_event] + data
        while len(data) >= 8 and len(data) >= struct.unpack_from("=I", data, 4)[0] >> 16:
            sender, rest = struct.unpack_from("=II", data)
            body, data, at = data[8:rest >> 16], data[rest >> 16:], 0
            messages = table.get(objects.get(sender), ([], []))[is_event]
            if (rest & 0xFFFF) >= len(messages):
                lines[is_event].append(f"object {sender} has no message {rest & 0xFFFF}")
                continue
            name, arguments = messages[rest & 0xFFFF]
            if name == "bind" and objects[sender] == "wl_registry":
                arguments = [("uint", None), ("string", None), ("uint", None), ("new_id", None)]
            texts, values, line = [], [], f"{objects[sender]}@{sender}.{name}"
            for it in arguments:
                text, at, value = text_of(it, body, at, objects)
                texts.append(text)
                values.append(value)
                if it[0] == "new_id":
                    objects[value] = it[1] or values[1]
            if sender == 1 and name == "delete_id":
                objects.pop(values[0], None)
            lines[is_event].append(f"{line}({', '.join(texts)})")
        left[is_event] = data
    return lines


def faults(kept, policy, files):
    """What is wrong with what went to the compositor on one connection, and how many requests there were."""
    table = rows(files)
    allowed, names = opened(policy, table)
    never = set(re.findall(r"^(?:refuse|ignore) (\S+)", policy, re.M))
    objects, wrong, count, left = {1: "wl_display"}, [], 0, [b"", b""]
    for is_event, data in kept:
        data = left[is_event] + data
        while len(data) >= 8 and len(data) >= struct.unpack_from("=I", data, 4)[0] >> 16:
            sender, rest = struct.unpack_from("=II", data)
            body, data = data[8:rest >> 16], data[rest >> 16:]
            messages = table.get(objects.get(sender), ([], []))[is_event]
            if (rest & 0xFFFF) >= len(messages):
                wrong.append(f"object {sender} has no message {rest & 0xFFFF}")
                continue
            name, arguments = messages[rest & 0xFFFF]
            count += not is_event
            if not is_event and f"{objects[sender]}.{name}" in never:
                wrong.append(f"{objects[sender]}.{name}")
            at, text = 0, None
            for kind, interface in arguments:
                if kind in ("string", "array"):
                    length = struct.unpack_from("=I", body, at)[0]
                    text, at = body[at + 4:at + 3 + length].decode(errors="replace"), at + 4 + (length + 3) // 4 * 4
                elif kind == "new_id" and interface is None:  # wl_registry.bind, whose name and version stand before
                    length = struct.unpack_from("=I", body, at)[0]
                    text, at = body[at + 4:at + 3 + length].decode(), at + 4 + (length + 3) // 4 * 4
                    version, number = struct.unpack_from("=II", body, at)
                    objects[number] = text
                    if not 1 <= version <= int(allowed.get(text, 0)):
                        wrong.append(f"a bind of {text} {version}")
                elif kind != "fd":
                    if kind == "new_id":
                        objects[struct.unpack_from("=I", body, at)[0]] = interface
                    at += 4
        left[is_event] = data
    wrong += [f"an object of {it}" for it in objects.values() if it not in names]
    return wrong, count
