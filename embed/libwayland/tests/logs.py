"""Lines of WAYLAND_DEBUG without what differs from run to run: times, serials, descriptors, and the numbers of objects.

Objects are counted in the order in which they come: of several free numbers the two libraries take different ones. Lines of delete_id, which
come with an earlier or a later reading from run to run, are left out."""

import re

LINE = re.compile(r"\[ *\d+\.\d+\] (.*)")
MESSAGE = re.compile(r"(.*?)(\w+)(@[^.]+\.)(\w+)\((.*)\)")

# Which arguments are serials, times or tokens, of the messages behind them.
VARYING = {
    "0": "wl_callback.done xdg_wm_base.ping xdg_wm_base.pong wl_shell_surface.ping wl_shell_surface.pong xdg_surface.configure "
         "xdg_surface.ack_configure zwlr_layer_surface_v1.configure zwlr_layer_surface_v1.ack_configure wl_keyboard.enter wl_keyboard.leave "
         "wl_keyboard.modifiers wl_pointer.enter wl_pointer.leave wl_pointer.motion wl_pointer.axis wl_pointer.axis_stop wl_pointer.set_cursor "
         "wl_touch.motion wl_data_device.enter wl_data_device.motion wl_data_offer.accept zwp_text_input_v3.done zwp_virtual_keyboard_v1.key "
         "xdg_activation_token_v1.set_serial xdg_activation_token_v1.done xdg_activation_v1.activate",
    "01": "wl_keyboard.key wl_pointer.button wl_touch.down wl_touch.up",
    "012": "zwlr_screencopy_frame_v1.ready",
    "0123456": "wp_presentation_feedback.presented",
    "1": "wl_data_device.set_selection zwp_primary_selection_device_v1.set_selection xdg_popup.grab xdg_toplevel.move xdg_toplevel.resize "
         "xdg_toplevel.show_window_menu",
    "3": "wl_data_device.start_drag",
}
PLACES = {name: set(map(int, places)) for places, names in VARYING.items() for name in names.split()}


def hidden(line):
    """A message without what varies."""
    line = re.sub(r"\bfd \d+", "fd N", line)
    found = MESSAGE.fullmatch(line)
    places = PLACES.get(f"{found[2]}.{found[4]}") if found else None
    if not places:
        return line
    arguments = ", ".join("N" if at in places else it for at, it in enumerate(found[5].split(", ")))
    return f"{found[1]}{found[2]}{found[3]}{found[4]}({arguments})"


class Objects:
    """Names of objects by the order in which they came.

    A number may have another object while a callback's `done` still waits in a queue: from the delete_id on here, and over the system's
    library once the program has destroyed the callback. So an object is known by its interface, too, and a `done` is for the first callback
    of its number that has had none. A compositor that sends delete_id has no such object any more, even if there was no `done`."""

    def __init__(self):
        self.count, self.latest, self.of_interface, self.waiting = 1, {"1": "#1"}, {}, {}

    def add(self, interface, number):
        self.count += 1
        name = self.latest[number] = self.of_interface[interface, number] = f"#{self.count}"
        if interface == "wl_callback":
            self.waiting.setdefault(number, []).append(name)

    def name(self, interface, number):
        return self.of_interface.get((interface, number)) or self.latest.get(number, number)

    def done(self, number):
        waiting = self.waiting.get(number)
        return waiting.pop(0) if waiting else self.name("wl_callback", number)

    def discarded(self, number):
        """An event is dropped, since the program has destroyed the object, which has its number still."""
        waiting = self.waiting.get(number, [])
        if self.latest.get(number) in waiting:
            waiting.remove(self.latest[number])
        return self.latest.get(number, number)

    def counted(self, lines):
        """The lines with each object's number in the order in which it came."""
        out = []
        for line in lines:
            if deleted := re.search(r"(-> )?wl_display@1\.delete_id\((\d+)\)", line):
                if deleted[1]:
                    self.waiting.pop(deleted[2], None)
                continue
            for bound, interface, number in re.findall(r'(?:"(\w+)", \d+, )?new id ([^@ ]*)@(\d+)', line):
                self.add(bound or interface, number)
            if ended := re.search(r"wl_callback@(\d+)\.done\(", line):
                out.append(line.replace(f"@{ended[1]}.", f"@{self.done(ended[1])}."))
            elif dropped := re.search(r"discarded \[unknown\]@(\d+)", line):
                out.append(line.replace(f"@{dropped[1]}", f"@{self.discarded(dropped[1])}"))
            else:
                out.append(re.sub(r"([^\s(@]+)@(\d+)", lambda it: f"{it[1]}@{self.name(it[1], it[2])}", line))
        return out


def split(text):
    """The messages of a log, as they stand there, and its other lines."""
    lines = [(LINE.match(it), it) for it in text.splitlines()]
    return [found[1] for found, _ in lines if found], [it for found, it in lines if not found]


def renumbered(lines):
    """Lines out of a longer log, as if the first object that they name were the first of all."""
    names = {}
    return [re.sub(r"@#\d+", lambda it: names.setdefault(it[0], f"@#{len(names) + 1}"), line) for line in lines]


class Log:
    """A log that grows: that of a compositor, to which many programs come."""

    def __init__(self, path):
        self.path, self.at, self.objects = path, 0, Objects()

    def taken(self):
        """The messages that came since it was last asked."""
        with open(self.path, "rb") as file:
            file.seek(self.at)
            text = file.read()
        text = text[:text.rfind(b"\n") + 1]
        self.at += len(text)
        return renumbered([hidden(it) for it in self.objects.counted(split(text.decode(errors="replace"))[0])])


def messages(lines):
    """Those of one program."""
    return [hidden(it) for it in Objects().counted(lines)]
