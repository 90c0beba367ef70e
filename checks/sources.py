"""Reads the functions of crates/, their contracts and their comments, in the layout that `rt fmt` gives them."""
import collections
import functools
import pathlib
import re

CRATES = pathlib.Path(__file__).resolve().parent.parent / "crates"

# a function in its file: the type or trait that it belongs to (or None), its name, its signature with its clauses, its body, its lines from the
# first to the one after the last (counted from 0), and the comment above it
Function = collections.namedtuple("Function", "path owner name head body lines comment")

HEAD = re.compile(r"( *)(?:pub(?:\(\w+\))? )?(?:const )?(?:final )?fn (\w+)")


# The type of an `impl`, or the trait: what its first line names once all in <> is dropped.
def owner_of(text):
    while re.search(r"<[^<>]*>", text):
        text = re.sub(r"<[^<>]*>", "", text)
    return re.sub(r".* for |.*(?:impl|trait) ", "", re.split(r" (?:\{|where)|:(?!:)", text)[0]).split("::")[-1].lstrip("&").strip()


# The comment that ends before a line, without its marks. Attributes may stand in between.
def comment_above(lines, at):
    comment = []
    while at and re.match(r" *(//[^!]|#\[)", lines[at - 1] + " "):
        at -= 1
        if not lines[at].lstrip().startswith("#["):
            comment.insert(0, re.sub(r"^ *///? ?", "", lines[at]))
    return "\n".join(comment)


def functions_of(path):
    lines = path.read_text().splitlines()
    owner, at = None, 0
    while at < len(lines):
        if re.match(r"(pub )?(impl|trait)\b", lines[at]):
            owner = owner_of(" ".join(lines[at:at + 8]).replace("->", ""))
        head = HEAD.match(lines[at])
        at += 1
        if not head:
            continue
        indent, first, with_clauses = head[1], at - 1, False
        last, depth = first, 0
        while depth or lines[last] != indent + "{" and not lines[last].endswith((";", "{}")):
            with_clauses = with_clauses or re.match(rf"{indent}    (ghost|requires|ensures)\b", lines[last])
            if lines[last].endswith(" {") and not with_clauses:
                break
            if with_clauses:
                clause = re.sub(r'"(\\.|[^"\\])*"', "", lines[last])
                depth += clause.count("{") - clause.count("}")
            last += 1
        at = last + 1
        if lines[last].endswith("{"):
            at = lines.index(indent + "}", last)
        of, texts = owner if indent else None, ("\n".join(lines[first:last + 1]), "\n".join(lines[last + 1:at]))
        yield Function(path, of, head[2], *texts, (first, at + 1), comment_above(lines, first))


# Code without comments and texts.
def code(text):
    return re.sub(r'"(?:\\.|[^"\\\n])*"', '""', re.sub(r"//.*", "", text))


# What the crate of a file has: the code of all its sources in one.
@functools.cache
def sources_of(crate):
    return "".join(code(it.read_text()) for it in sorted(crate.rglob("src/**/*.rt")) if "out" not in it.parts)


def crate_of(path):
    return CRATES / path.relative_to(CRATES).parts[0]


# Whether other crates can name what stands in this file: by a `pub use` of its crate, or in a `pub mod`.
def is_shown(path, name):
    crate = crate_of(path)
    is_module = re.search(rf"^pub mod {path.stem};", code((crate / "src/lib.rt").read_text()), re.M)
    return bool(is_module or re.search(rf"\b{name}\b", " ".join(re.findall(r"^pub use [^;]*;", sources_of(crate), re.M))))
