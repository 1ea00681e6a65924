"""Reads the public items of the crates for docs/site: their doc comments, and the contracts of functions with links to definitions.

The files have the layout of `rt fmt`. So an item begins and ends at the same indentation, and each clause of a contract begins a line.
"""

import functools
import glob
import html
import os
import re
import textwrap
from collections import Counter
from dataclasses import dataclass

ITEM = re.compile(r'(pub )?(?:(?:const|unsafe|extern "C") )*(fn|struct|enum|trait|type|const|mod|impl|ghost)\b(?: (\w+))?')
CLAUSE = re.compile(r"\s*(requires|ensures\*?)(?: (\w+))? \{")


@dataclass
class Item:
    """An item: its lines, the number of the first, and how many come before its body."""
    kind: str
    name: str
    is_public: bool
    doc: str
    lines: list
    first: int
    head: int


@dataclass
class Module:
    """A module: its names from the root of the crate, whether a program outside can name what is in it, and its items."""
    path: tuple
    file: str
    doc: str
    is_open: bool
    items: list


def read(path):
    with open(path, encoding="utf-8") as file:
        return file.read()


def names(top):
    """The crates in the order of crates.txt, without those of tests and those that are no library."""
    listed = re.findall(r"^(\w+)", read(f"{top}/crates.txt").partition("# Tests")[0], re.M)
    return [it for it in listed if os.path.exists(f"{top}/crates/{it}/src/lib.rt")]


# ---- what stands in a crate


def extent(lines, at, indent):
    """Of the item that begins at a line: the last line before its body, and its last line."""
    depth = 0
    for end in range(at, len(lines)):
        text = re.sub(r'"(?:[^"\\]|\\.)*"|\'(?:[^\'\\]|\\.)\'|//.*', "", lines[end]).rstrip()
        depth += len(re.findall(r"[(\[{]", text)) - len(re.findall(r"[)\]}]", text))
        if text.endswith("{") and not lines[end][:indent].strip() and lines[end][indent] != " ":
            return end, next(it for it in range(end, len(lines)) if lines[it].startswith(" " * indent + "}"))
        if depth == 0 and (text.endswith(";") or text.endswith("{}") and not CLAUSE.match(text)):
            return end, end
    raise ValueError(f"no end: {lines[at]}")


def items_of(lines, indent=0, first=1):
    """The items that begin at this indentation, each with the comment above it. The first line has the number `first`."""
    doc, attributes, at = [], "", 0
    while at < len(lines):
        text = lines[at][indent:]
        found = ITEM.match(text)
        if text.startswith("///"):
            doc.append(text[3:].removeprefix(" "))
        elif text.startswith("#["):
            attributes += text
        elif found:
            head, end = extent(lines, at, indent)
            yield Item(found[2], found[3] or "", bool(found[1]), "\n".join(doc), lines[at:end + 1], first + at, head - at + 1)
            at = end
        if found or not text:
            doc, attributes = [], ""
        at += 1


@functools.cache
def shown(top, name):
    """What a crate shows by `pub use`: the text behind these words."""
    return [it for file in glob.glob(f"{top}/crates/{name}/src/**/*.rt", recursive=True) for it in re.findall(r"^pub use ([^;]*);", read(file), re.M)]


@functools.cache
def exported(top, name):
    """The names of what a crate shows so, without the modules that lead there."""
    return set(re.findall(r"\b\w+\b(?!::)", " ".join(shown(top, name))))


@functools.cache
def modules(top, name):
    """The modules of a crate, in order. That of the laws counts as open, whoever can name it."""
    found = []

    def add(path, file, doc, is_open, items):
        found.append(Module(path, file, doc, is_open, items))
        folder = os.path.dirname(file) if not path else file.removesuffix(".rt")
        for it in (it for it in items if it.kind == "mod"):
            is_inside = is_open and it.is_public or it.name == "laws" or it.name in exported(top, name)
            if it.lines[0].endswith(";"):
                add_file((*path, it.name), f"{folder}/{it.name}.rt", it.doc, is_inside)
            else:
                add((*path, it.name), file, it.doc, is_inside, list(items_of(it.lines[1:-1], 4, it.first + 1)))

    def add_file(path, file, doc, is_open):
        lines = read(f"{top}/{file}").splitlines()
        own = "\n".join(it[3:].removeprefix(" ") for it in lines if it.startswith("//!"))
        add(path, file, own or doc, is_open, list(items_of(lines)))

    add_file((), f"crates/{name}/src/lib.rt", "", True)
    return found


@functools.cache
def public(top, name):
    """What a program outside of the crate can name: modules and items, by anchors. An anchor is the name, or the path if others have the name."""
    found = [(module, it) for module in modules(top, name) for it in module.items
             if it.is_public and it.kind != "mod" and (module.is_open or it.name in exported(top, name) or "extern" in it.lines[0])]
    count = Counter(it.name for _, it in found)
    return {it.name if count[it.name] == 1 else ".".join((*module.path, it.name)): (module, it) for module, it in found}


def place_of(top, crate, name):
    """The crate that has an item which this crate shows by its name; None if it is no item."""
    if name in public(top, crate):
        return crate
    further = (re.match(r"wl_\w+", it) for it in shown(top, crate) if re.search(rf"\b{name}\b", it))
    return next((place for it in further if it and (place := place_of(top, it[0], name))), None)


@functools.cache
def definitions(top, path):
    """The names that a file of definitions has, with the numbers of their lines."""
    lines = read(f"{top}/{path}").splitlines() if os.path.exists(f"{top}/{path}") else []
    found = ((re.match(r"\s*(?:abbrev pub|pub record|pub data) (\w+)", line), number) for number, line in enumerate(lines, 1))
    return {it[1]: number for it, number in found if it}


@functools.cache
def words(top, file):
    """The words that the contracts of a file take from definitions, with the places of these."""
    found = {}
    for crate, path, named in re.findall(r"ghost use Rattle\.(\w+)\.specs\.([\w.]+)\.\{([^}]*)\}", read(f"{top}/{file}")):
        path = f"crates/{crate}/specs/{path.replace('.', '/')}.antt"
        lines = definitions(top, path)
        found |= {it: f"/{path}#L{lines[it]}" for it in named.replace(" ", "").split(",") if it in lines}
    return found


# ---- the page


def clauses(item):
    """The contract of a function: for each clause its word and name, its text, and the number of its line."""
    found, note = [], []
    for at, line in enumerate(item.lines[:item.head]):
        text, begins = line.strip(), CLAUSE.match(line)
        if begins:
            found.append([" ".join(filter(None, begins.groups())), [*note, line], item.first + at])
        elif found and text not in ("{", "{}") and not text.startswith("//"):
            found[-1][1].append(line)
        note = [*note, line] if text.startswith("//") else []
    return [(name, textwrap.dedent("\n".join(lines)).removesuffix(" {}").rstrip(";"), line) for name, lines, line in found]


def declaration(item):
    """The code of an item without attributes, body and contract, and without the fields of a struct with private ones."""
    lines = [it for it in item.lines if not re.match(r"\s*#\[", it)]
    if item.kind == "struct" and any(re.match(r"    (?!pub |//)\S", it) for it in lines[1:]):
        return lines[0] + " .. }"
    if item.kind in ("fn", "trait"):
        end = next((at for at, it in enumerate(lines) if CLAUSE.match(it)), item.head)
        text = textwrap.dedent("\n".join(it for it in lines[:end] if not it.strip().startswith("//")))
        return re.sub(r"\s*(\{\}?|;|\bwhere)?\s*(\{\}?)?$", "", text)
    return textwrap.dedent("\n".join(lines))


def code(text, places=None):
    """Some code as HTML. `places` has what is linked in it."""
    text = html.escape(text, quote=False)
    if places:
        text = re.sub(r"(?<![\w.&])[A-Za-z]\w*", lambda it: f'<a href="{places[it[0]]}">{it[0]}</a>' if it[0] in places else it[0], text)
    else:
        text = re.sub(r"(?m)//.*$", r'<span class="comment">\g<0></span>', text)
    return f"<pre><code>{text}</code></pre>"


class Writer:
    """Writes the page of a crate. `anchors` has the items by their names, and the methods as `Type::name`."""

    def __init__(self, top, anchors):
        self.top, self.anchors = top, anchors
        self.parts, self.texts, self.entries = [], [], []

    def put(self, text):
        self.parts.append(text)

    def put_doc(self, doc, owner=""):
        """A doc comment. It becomes HTML at the end, with all others."""
        def link(found):
            path = (found[2] or found[1]).split("::")
            anchor = next((self.anchors[it] for it in ("::".join(path[-2:]), f"{owner}::{path[-1]}", path[-1]) if it in self.anchors), None)
            return f"[`{found[1]}`](#{anchor})" if anchor else f"`{found[1]}`"

        self.texts.append(re.sub(r"\[`([^`]+)`\](?:\((?!http)([^)]*)\))?", link, doc))
        self.parts.append(None)

    def put_item(self, level, anchor, label, module, item, owner=""):
        self.put(f'<h{level} id="{anchor}"><span class="kind">{item.kind}</span> <code>{label}</code></h{level}>{code(declaration(item))}')
        self.entries.append((anchor, label))
        self.put_doc(item.doc, owner)
        in_header = f' · <a href="/embed/numbyroga.h#{label}">in the header</a>' if label.startswith("nb_") else ""
        self.put(f'<p class="of"><a href="/{module.file}#L{item.first}">source</a>{in_header}</p>')
        self.put_contract("Contract", clauses(item), module)

    def put_contract(self, label, found, module):
        if found:
            self.put(f'<details class="contract"><summary>{label}: {", ".join(it.split()[-1] for it, _, _ in found)}</summary>')
            for name, text, line in found:
                self.put(f'<p class="clause"><a href="/{module.file}#L{line}"><code>{name}</code></a></p>{code(text, words(self.top, module.file))}')
            self.put("</details>")

    def page(self, all_to_html):
        # The headings of a comment stand below whatever heading it has.
        texts = (re.sub(r"<(/?)h[1-6][^>]*>", lambda it: "</strong></p>" if it[1] else "<p><strong>", it) for it in all_to_html(self.texts))
        return "\n".join(next(texts) if it is None else it for it in self.parts)


def members(top, name):
    """The public functions and constants of each public type, and those of a trait, by the name of the type."""
    items = {it.name: it for _, it in public(top, name).values()}
    found = {}
    for module in modules(top, name):
        hidden = {it.name for it in module.items if it.kind != "impl" and it is not items.get(it.name)}
        for it in module.items:
            head = " ".join(line.strip() for line in it.lines[:it.head])
            of = re.match(r"impl(?:<.*?>)? (\w+)(?:<.*>)?(?: where.*)? \{|pub trait (\w+)", head)
            owner = of and (of[1] or of[2])
            if owner in items and owner not in hidden:
                inside = (at for at in items_of(it.lines[it.head:-1], 4, it.first + it.head) if at.is_public or it.kind == "trait")
                found.setdefault(owner, []).extend((module, at) for at in inside if at.kind in ("fn", "const"))
    return found


def page(top, name, all_to_html):
    """The page of a crate, and what the search finds on it: anchors and texts."""
    root, own = modules(top, name)[0], members(top, name)
    anchors = {it.name: anchor for anchor, (_, it) in public(top, name).items()}
    anchors |= {f"{of}::{it.name}": f"{anchors[of]}.{it.name}" for of, inside in own.items() for _, it in inside}
    writer = Writer(top, anchors)
    writer.put(f'<h1 id="crate"><code>{name}</code></h1>')
    writer.put_doc(root.doc)
    if os.path.exists(f"{top}/crates/{name}/README.md"):
        writer.put(f'<p class="of"><a href="/crates/{name}/README.md">page of the crate</a> · <a href="/{root.file}">source</a></p>')
    last = None
    for anchor, (module, item) in public(top, name).items():
        if module is not last:
            writer.put(f'<h2 id="module-{".".join(module.path)}"><code>{"::".join(module.path) or "the root"}</code></h2>')
            writer.put_doc(module.doc if module.path else "")
        last = module
        writer.put_item(3, anchor, item.name, module, item)
        if item.kind == "trait":
            ghosts = (it for it in items_of(item.lines[item.head:-1], 4, item.first + item.head) if it.kind == "ghost" and it.name != "use")
            laws = [(f"ghost {it.name}", textwrap.dedent("\n".join(it.lines)), it.first) for it in ghosts]
            writer.put_contract("What an implementation says", laws, module)
        inside = own.get(item.name, [])
        if len(inside) > 3:
            links = (f'<a href="#{anchor}.{it.name}">{it.name}</a>' for _, it in inside)
            writer.put(f'<p class="members">{" · ".join(links)}</p>')
        for at, it in inside:
            writer.put_item(4, f"{anchor}.{it.name}", f"{item.name}::{it.name}", at, it, item.name)
    others = sorted({(re.match(r"wl_\w+", it)[0], word) for it in shown(top, name) if it.startswith("wl_") for word in re.findall(r"\w+", it)})
    rows = [f'<li><a href="/reference/{place}.html#{word}"><code>{of}::{word}</code></a></li>'
            for of, word in others if (place := place_of(top, of, word))]
    if rows:
        writer.put(f'<h2 id="of-other-crates">Of other crates</h2>\n<ul>{"".join(rows)}</ul>')
    return writer.page(all_to_html), writer.entries


def says(top, name, all_to_html):
    """The first sentence of a crate's comment, as HTML."""
    doc = modules(top, name)[0].doc.partition("\n\n")[0].replace("\n", " ")
    sentence = re.match(r"(.*?[^.]\.)(?= [A-Z]|$)", doc)
    return re.sub("</?p>", "", all_to_html([re.sub(r"\[(`[^`]+`)\](?:\([^)]*\))?", r"\1", sentence[1] if sentence else doc)])[0])
