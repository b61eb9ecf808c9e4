"""Parses the sources of the crates: items with their docstrings and contracts, of which docs/API.md is made."""
import re
from collections import namedtuple
from textwrap import dedent, fill, indent

from copies import CRATES, read

IMPL = re.compile(r"impl(?:<[^>]*>)? ((?:(?:\w+::)*(\w+)(?:<.*>)? for )?(\w+))")
ITEM = re.compile(r" *(pub )?(?:pub\(\w+\) )?(?:unsafe |const (?=fn ))?(const|enum|fn|struct|trait) (\w+)")
# The libraries, each with the order of its modules. Those that are not named follow in alphabetical order.
LIBRARIES = {"humantime": ["duration", "date", "value", "wrapper", "calendar", "laws"]}
LIBRARIES |= {"humantime_lines": [], "humantime_std": []}
LIBRARIES |= {"humantime_settings": [], "humantime_clap": []}
LINK = r"\[(`[^`]*`)\](?:\([^)]*\))?"


def of_top(module):
    """Returns the first part of the name of a module."""
    return module.split(".")[0]


def files(crate, folder):
    """Yields the source files in a folder of a crate: for each its module, such as `date.parse`, and its text."""
    top = CRATES / crate / folder
    for path in sorted([*top.rglob("*.antt"), *top.rglob("*.rt")]):
        yield ".".join(path.relative_to(top).with_suffix("").parts), path.read_text(encoding="utf-8")


# An item: the lines of its docstring and attributes, the type and the trait of its `impl`, its lines up to a body, and those in its braces.
Item = namedtuple("Item", "kind name line docs attributes owner trait is_public head body", defaults=[[], "", "", False, "", []])


def items(text):
    """Yields the items of a source file, in order. A docstring above anything else is an item of the kind `docs`."""
    owner, trait, docs, attributes, lines = "", "", [], [], text.split("\n")
    for number, line in enumerate(lines, 1):
        rest = "\n".join(lines[number - 1 :])
        body = rest.partition("\n}")[0].split("\n")[1:] if line.endswith("{") else []
        if found := re.match(r" *//[/!] ?(.*)", line):
            docs.append(found[1].rstrip())
        elif found := re.match(r" *(#\[.*)", line):
            attributes.append(found[1])
        elif found := IMPL.match(line):
            owner, trait, head = found[3], found[2] or "", re.sub(r" \{\}?$", "", line)
            yield Item("impl", found[1], number, docs, attributes, owner, trait, False, head, body)
        elif found := ITEM.match(line):
            head = dedent(re.split(r"\s*\{\}?$|(?<=;)$", rest, maxsplit=1, flags=re.M)[0]).removeprefix("pub ")
            head = re.sub(r",\n\s+(?=[a-z_]+:)", ", ", re.sub(r",\s*\n\)", ")", re.sub(r"\(\s*\n\s*", "(", head)))
            yield Item(found[2], found[3], number, docs, attributes, owner, trait, bool(found[1]), head, body)
            owner = found[3] if found[2] == "trait" else owner
        elif docs:
            yield Item("docs", "", number - len(docs), docs)
        if re.match(r"\}$|\S.*\{\}$", line):
            owner, trait = "", ""
        if not re.match(r" *(//[/!]|#\[)", line):
            docs, attributes = [], []


def said(docs, mark="/// "):
    """Returns the lines of a docstring before its examples, each after this mark."""
    text = re.sub(LINK, r"\1", "\n".join(docs).partition("# Examples")[0].rstrip())
    return [(mark + line).rstrip() for line in text.split("\n") if text]


def declared(item):
    """Returns a function with its contract, or a type with attributes and what is public of it."""
    if item.kind not in ("enum", "struct"):
        return item.head.partition(" = ")[0] if item.kind == "const" else item.head.removesuffix(";")
    attributes = [re.sub(r"\bDrop, |, Drop\b", "", line) for line in item.attributes if "(Drop)" not in line]
    head = " ".join([*attributes, re.sub(r"\(\w+\);$", "", item.head).replace("pub ", "")])
    public = r"(?: +///.*\n)* +pub .*" if item.kind == "struct" else " .*"
    body = re.findall(public, re.sub(LINK, r"\1", "\n".join(item.body)))
    return "\n".join([f"{head} {{", *body, "}"]).replace("pub ", "") if body else head if ";" in head else f"{head} {{ .. }}"


def entry(item, found):
    """Returns the lines of a public item, and below a type what its traits promise, and its methods. A trait has those of its `impl`."""
    made = [*said(item.docs), declared(item)]
    hidden = {"", "Model", *(other.name for other in found if other.kind == "trait" and not other.is_public)}
    for other in found:
        if other.kind == "impl" and other.owner == item.name and other.trait not in hidden:
            known = re.findall(r"^    (?:type|ghost (?!use))[^;]*;$", "\n".join(other.body), re.M)
            known = [line for line in known if "Prim." not in line]
            known += [indent(part.head, "    ") for part in found if part[5:7] == other[5:7] and "ensures" in part.head]
            made += [*said(other.docs), other.head, *known]
        elif other.kind in ("const", "fn") and (other.is_public and other.owner or other.trait) == item.name:
            same = [other] + [part for part in found if part.name == other.name and part.owner in (item.name, other.owner)]
            head = declared(next((part for part in same if "ensures" in part.head), other))
            made += [*said(next(part.docs for part in same if part.docs)), head.replace(f"{other.kind} ", f"{other.kind} {other.owner}::", 1)]
    return "\n".join(made)


def public_items():
    """Returns docs/API.md below its introduction: an index, and the docstrings, without examples,
    of the crates and of their public modules and items, with the contracts of these."""
    index, made = "\n## Index\n", ""
    for crate, order in LIBRARIES.items():
        found = {module: [*items(text)] for module, text in files(crate, "src")}
        lib, everything, sections = read(CRATES, crate, "src/lib.rt"), sum(found.values(), []), {}
        modules = re.findall(r"^pub mod (\w+);", lib, re.M)
        used = " ".join(re.findall(r"^pub use [\w:]+::([^;]*);", lib, re.M))
        shown = {*re.findall(r"\w+", used), *modules, "lib"}
        place = lambda name: ([*order, of_top(name)].index(of_top(name)), name)
        public = [(module, item) for module in sorted(found, key=place) for item in found[module]
                  if item.is_public and not item.owner and {item.name, module} & shown]
        for module, item in public:
            top = of_top(module)
            head, module = (top, top) if top in modules else (item.name, module)
            sections.setdefault(head, (module, []))[1].append(item)
        links = ", ".join(f"[{head}](#{head.lower()})" for head in sections)
        links = f"[{crate}](#the-crate-{crate}): {links}"
        index += f"\n{fill(links, 100, break_on_hyphens=False)}\n"
        made += "\n".join(["", f"## The crate `{crate}`", "", *said(found["lib"][0].docs, ""), ""])
        for head, (module, here) in sections.items():
            text = [*said(found[head][0].docs, ""), ""] if head in modules else []
            path = f"../crates/{crate}/src/{module.replace('.', '/')}.rt"
            code = "\n\n".join(entry(item, everything) for item in here)
            made += f"\n### {head}\n\n" + "\n".join([*text, f"[Source]({path})"])
            made += f"\n\n```rust\n{code}\n```\n"
    return index + made
