"""Reads embed/numbyroga.h for docs/site: its groups, and what it declares, with the comments."""

import html
import re

NAME = r"\b(?:nb|NB)_\w+"


def chunks(text):
    """The comments and declarations of the header, in order: the number of the first line, the comment, and the code below it."""
    lines = text.splitlines()
    at, first, comment = 0, 0, ""
    while at < len(lines):
        start = at
        if lines[at].startswith("/*"):
            if comment:
                yield first, comment, ""
            while not lines[at].endswith("*/"):
                at += 1
            first, comment = start + 1, "\n".join(lines[start:at + 1])
        elif lines[at]:
            depth = 0
            while at < len(lines) and (depth or lines[at]) and not (at > start and lines[at].startswith("/*")):
                depth += lines[at].count("{") - lines[at].count("}")
                # The brace of `extern "C"` is open to the end.
                depth = 0 if lines[at].startswith("extern") else max(depth, 0)
                at += 1
            yield (first if comment else start + 1), comment, "\n".join(lines[start:at])
            comment = ""
            continue
        at += 1


def markdown(comment):
    """The text of a comment in Markdown: what the header declares and paths of pages become code."""
    text = "\n".join(re.sub(r"^ ?\* ?", "", it) for it in comment[2:-2].splitlines())
    code = rf"(?<![`\w])({NAME}|docs/[\w/]+\.md)(?![`\w])"
    # What stands as code already is left alone.
    return "`".join(re.sub(code, r"`\1`", it) if at % 2 == 0 else it for at, it in enumerate(text.strip().split("`")))


def declared(code):
    """The names that some code declares: calls, types and macros; and the values of an enum."""
    outside = re.sub(r"/\*.*?\*/", "", code, flags=re.S)
    values = [it for body in re.findall(r"^enum \{(.*?)\}", outside, re.S | re.M) for it in re.findall(r"(NB_\w+)\s*=", body)]
    names = re.findall(r"^#define (NB_\w+)|^(?:typedef\b.*|\}) (nb_\w+);|^(?:static inline )?[a-z][\w ]*[ *](nb_\w+)\(", outside, re.M)
    return [next(filter(None, it)) for it in names], values


def shown(code, values):
    """Some code as HTML: an anchor at each value, comments softer, and without the bodies of functions."""
    code = re.sub(r"(^static inline .*?\))\n\{.*?^\}", r"\1;", code, flags=re.S | re.M)
    text = re.sub(r"/\*.*?\*/", r'<span class="comment">\g<0></span>', html.escape(code, quote=False), flags=re.S)
    for name in values:
        text = re.sub(rf"\b{name}(?=\s*=)", f'<span id="{name}">{name}</span>', text, count=1)
    return text


def linked(text, names):
    """HTML with links at the names of the header, but where they are declared."""
    return re.sub(rf'(?<!id=")(?<!">){NAME}', lambda found: f'<a href="#{found[0]}">{found[0]}</a>' if found[0] in names else found[0], text)


def page(text, proved, all_to_html):
    """The page of the header, and what the search finds on it: anchors and texts. `proved` are the calls that have a contract."""
    parts, texts, entries = ['<h1 id="header">numbyroga.h</h1>'], [], []
    found = list(chunks(text))
    names = {it for _, _, code in found for kind in declared(code) for it in kind}
    for line, comment, code in found:
        group = re.match(r"/\* ======== ([^\n]*?)(?: \*/)?(?:\n|$)", comment)
        own, values = declared(code)
        if group:
            anchor = re.sub(r"\W+", "-", group[1].lower()).strip("-")
            parts.append(f'<h2 id="{anchor}">{html.escape(group[1])}</h2>')
            entries.append((anchor, group[1]))
            comment = "/*" + comment[group.end():] if "\n" in comment else ""
        elif own or values:
            label = own or (values if len(values) < 4 else [values[0], ".. " + values[-1]])
            anchors = "".join(f'<span id="{it}"></span>' for it in own[1:])
            anchor = own[0] if own else f"values-of-{values[0]}"
            parts.append(f'<h3 id="{anchor}">{anchors}<code>{", ".join(label).replace(", ..", " ..")}</code></h3>')
            entries += [(it, it) for it in own + values]
        else:
            code = ""
        if code:
            parts.append(f'<pre class="c"><code>{linked(shown(code, values), names - set(own))}</code></pre>')
        if comment:
            texts.append(markdown(comment))
            # A comment with a colon at its end stands before the code.
            parts.insert(len(parts) - 1 if code and texts[-1].endswith(":") else len(parts), None)
        if own or values:
            contract = "".join(f' · <a href="/reference/wl_c.html#{it}">contract of {it}</a>' for it in own if it in proved)
            parts.append(f'<p class="of"><a href="/embed/numbyroga.h#L{line}">source</a>{contract}</p>')
    rendered = iter(all_to_html(texts))
    # What begins the paragraphs at the head is what they are about.
    head = re.sub(r"<p>([A-Z]\w+)\. ", r"<p><strong>\1.</strong> ", next(rendered))
    rendered = iter([head, *rendered])
    return "\n".join(next(rendered) if it is None else it for it in parts), entries
