"""Reads the definitions in specs/ of the crates, and writes them as a crate for rustdoc with a module for each file."""
import collections
import dataclasses
import html
import itertools
import pathlib
import re

TOP = pathlib.Path(__file__).resolve().parent.parent.parent
# docs/reference/build replaces a link with this scheme by a path.
LINK = "definitions:"
# What the parts of the model of a type mean.
MODEL = {
    "Value": "In a contract, a value of this type means its `Value`.",
    "view": "`view` computes the `Value` from the fields.",
    "invariant": "`invariant` holds for every value of this type.",
}
DEFINITION = re.compile(r"(?:abbrev pub|unfoldable pub|pub record|pub data) (\w+)")
USE = re.compile(r"(?:ghost )?use Rattle\.(\w+)\.specs\.([\w.]+?)(?:\.\{(.*)\}| as (\w+))", re.DOTALL)
# A text in quotes, a comment, or a name with what it is qualified by or which field of it is read.
TOKEN = re.compile(r'"[^"]*"|--[^\n]*|[\w\']+(?:\.[\w\']+)*|.', re.DOTALL)


# ---- reading

@dataclasses.dataclass
class Word:
    """A definition. If it is one of several that share one comment, `first` is the first of these."""
    name: str
    text: str
    comment: list
    first: str


@dataclasses.dataclass
class Module:
    """A file of definitions: its words, and its headings as lists of lines, in their order."""
    crate: str
    name: str
    introduction: list = dataclasses.field(default_factory=list)
    parts: list = dataclasses.field(default_factory=list)
    used: dict = dataclasses.field(default_factory=dict)

    def words(self):
        return [part for part in self.parts if isinstance(part, Word)]


def used_names(text):
    """What an import brings: each word, or the name for a whole module, with the crate and the module that it is from."""
    found = USE.fullmatch(text)
    if not found:
        return {}
    crate, module, words, other_name = found.groups()
    return {name: (crate, module) for name in ([other_name] if other_name else re.split(r"[\s,]+", words)) if name}


def read_module(file):
    """The module in a file. A word without a comment shares the comment, the heading or the introduction above it."""
    module = Module(file.parent.parent.name, file.stem)
    comment, first, is_shared = [], "", False
    for paragraph in file.read_text().strip().split("\n\n"):
        lines = paragraph.splitlines()
        above = list(itertools.takewhile(lambda line: line.startswith("--"), lines))
        if above:
            comment, first = [line[2:].removeprefix(" ").removeprefix("---- ") for line in above], ""
            is_shared = bool(module.introduction)
        if not module.introduction:
            module.introduction = comment
        if above and above[0].startswith("-- ---- "):
            module.parts.append(comment)
            is_shared = False
        code = lines[len(above):]
        for line in code:
            module.used |= used_names(line)
        if code and (found := DEFINITION.match(code[0])):
            first = first or found[1] if is_shared else ""
            module.parts.append(Word(found[1], "\n".join(code), comment, first))
    module.used |= {word.name: (module.crate, module.name) for word in module.words()}
    return module


def read_modules():
    """The modules of all crates, without the files that only name the others."""
    modules = [read_module(file) for file in sorted(TOP.glob("crates/*/specs/*.antt"))]
    return [module for module in modules if module.parts]


def defined_words(modules):
    return {(module.crate, module.name, word.name) for module in modules for word in module.words()}


# ---- writing

def link_to(target, text):
    crate, module, name = target
    return f'<a href="{LINK}{crate}/{module}#word.{name}">{text}</a>'


def with_links(code, used, defined, hidden=()):
    """Code as HTML, in which each word is a link, and a part of a model has its meaning as a title.

    The hidden names mean something else, and so does the name of a field.
    """
    pieces, before = [], ""
    for found in TOKEN.finditer(code):
        token = found.group()
        parts = token.split(".")
        place = used.get(parts[0])
        if place is None and token in MODEL and token not in hidden:
            title = MODEL[token].replace("`", "")
            pieces.append(f'<span title="{title}">{token}</span>')
        elif place is None or before == "." or parts[0] in hidden or re.match(" [:=] ", code[found.end():]):
            pieces.append(html.escape(token, quote=False))
        elif (*place, parts[0]) in defined:
            pieces.append(".".join([link_to((*place, parts[0]), parts[0]), *parts[1:]]))
        elif (*place, *parts[1:2]) in defined:
            pieces.append(".".join([parts[0], link_to((*place, parts[1]), parts[1]), *parts[2:]]))
        else:
            pieces.append(token)
        before = token
    return "".join(pieces)


def bound_names(word):
    """The names that a definition binds: its own, those of its fields, and its parameters."""
    fields = re.findall(r"^  pub (\w+) :|let (\w+) ", word.text, re.MULTILINE)
    groups = re.findall(r"λ ((?:\w+ )*\w+)\.|[({]((?:\w+ )*\w+) :", word.text)
    # A parameter begins with a small letter, which the name of a case does not.
    left_sides = re.findall(r"^\w[^=\n]*(?= =$| = )", word.text, re.MULTILINE)
    parameters = re.findall(r"(?<![\w.])[a-z]\w*", " ".join(left_sides))
    return {word.name, *parameters}.union(*(names.split() for pair in fields + groups for names in pair))


def as_markdown(text, module, defined):
    """A text in which nothing but code is marked, and a word in code is a link."""
    def marked(found):
        name = found[1]
        if name is None:
            return "\\" + found[0]
        target = (*module.used.get(name, ("", "")), name)
        return link_to(target, f"<code>{name}</code>") if target in defined else found[0]

    return re.sub(r"`([^`]*)`|[\\*_\[\]<>~|#&]", marked, text)


def as_sentences(comment, module, defined):
    """The paragraphs of a comment, each of which begins with a capital and ends with a full stop. Lines that are set in are a table."""
    lines = []
    for is_table, group in itertools.groupby(comment, lambda line: line.startswith(" ")):
        if is_table:
            table = html.escape("\n".join(group), quote=False)
            lines += [f"<pre>{table}</pre>", ""]
            continue
        for paragraph in " ".join(line or "\n" for line in group).split("\n"):
            if text := paragraph.strip():
                stop = "" if text[-1] in ".:" else "."
                lines += [as_markdown(text[0].upper() + text[1:] + stop, module, defined), ""]
    return lines


def entry(word, module, defined):
    """A word with its sentence, its signature and its equations."""
    sentences = as_sentences(word.comment, module, defined)
    if word.first not in ("", word.name):
        place = (module.crate, module.name, word.first)
        sentences[0] = f"With {link_to(place, f'<code>{word.first}</code>')}: {sentences[0]}"
    code = with_links(word.text, module.used, defined, bound_names(word))
    return [f'<div id="word.{word.name}">', "", f"## `{word.name}`", "", *sentences, f'<pre class="contract">{code}</pre>', "", "</div>", ""]


def heading(lines, module, defined):
    """The title is what stands before a colon, or all of it."""
    text = " ".join(itertools.takewhile(bool, lines))
    title, colon, _ = text.partition(":")
    rest = as_sentences(lines, module, defined) if colon or "" in lines else []
    return [f"# {as_markdown(title[0].upper() + title[1:], module, defined)}", "", *rest]


def page(module, defined):
    lines = as_sentences(module.introduction, module, defined)
    for part in module.parts:
        lines += entry(part, module, defined) if isinstance(part, Word) else heading(part, module, defined)
    return lines


def index(modules):
    """All words in the order of the alphabet, each with the modules that define it."""
    found = collections.defaultdict(list)
    for module in modules:
        for word in module.words():
            found[word.name].append((module.crate, module.name, word.name))
    lines, letter = [f"The index of all {len(found)} words."], ""
    for name in sorted(found, key=str.casefold):
        if name[0].upper() != letter:
            letter = name[0].upper()
            lines += ["", f"# {letter}", "", "| Word | Defined in |", "|---|---|"]
        places = ", ".join(link_to(place, f"{place[0]} {place[1]}") for place in found[name])
        lines.append(f"| `{name}` | {places} |")
    return lines


def documented(lines, item):
    return [*(f"/// {line}".rstrip() for text in lines for line in text.split("\n")), item]


def source(modules, defined, front):
    """A crate for rustdoc: what its first page has, the index, and the modules in those of their crates."""
    lines = ["#![no_std]", "#![allow(non_snake_case)]", *(f"//! {line}".rstrip() for line in front)]
    lines += documented(index(modules), "pub mod words {}")
    for crate, group in itertools.groupby(modules, lambda module: module.crate):
        lines += documented([f"The definitions of `{crate}`."], f"pub mod {crate} {{")
        for module in group:
            # So the search finds a word by the module that defines it.
            names = ", ".join(f'"{word.name}"' for word in module.words() if word.name != module.name)
            lines += documented(page(module, defined), f"#[doc(alias({names}))]\npub mod {module.name} {{}}")
        lines.append("}")
    return "\n".join(lines) + "\n"
