"""Mutants, which are the edits crates/CRATE/must-fail/*.edit, and the functions that they change."""

import os
import re
from collections import namedtuple
from functools import cache

# a function: the prover's name for it, its file in the crate, and its first and last line there, which no edit moves, since it
# puts one line for one line
Function = namedtuple("Function", "name file first last")

HEAD = re.compile(r'( *)(?:pub(?:\([a-z ]+\))? )?(?:const )?(?:extern "C" )?fn (\w+)')
CLAUSE = re.compile(r"\s*(?:requires|ensures|ghost)\b")
# the trait of an impl, if it has one, what the trait takes first, and the type
IMPL = re.compile(r"impl(?:<.*?>)? (?:(?:\w+::)*(\w+)(?:<(\w+).*?>)? for )?(\w+)")


class Edit(namedtuple("Edit", "crate name path refutes changes")):
    """An edit: its crate, its file's name, its file, what it refutes, and each change, as (file, old text, new text)."""

    @property
    def label(self):
        """The name by which an edit is told and listed."""
        return f"{self.crate}/{self.name}"


def edits_of(top, crate):
    """The edits of a crate of the repository at `top`. A file of another name counts as one too, unless it is a page: `rt must-fail`
    refuses it."""
    folder = f"{top}/crates/{crate}/must-fail"
    names = sorted(os.listdir(folder)) if os.path.isdir(folder) else []
    return [read(crate, it, f"{folder}/{it}") for it in names if not it.endswith(".md")]


def read(crate, name, path):
    """An edit's file: a line 'refutes: ', lines 'file: ', and for each change 'old: ' and 'new: '."""
    file, old, refutes, changes = "", "", "", []
    with open(path, encoding="utf-8") as lines:
        for line in lines.read().split("\n"):
            key, _, text = line.partition(": ")
            if key == "file":
                file = text.strip()
            elif key == "old":
                old = text
            elif key == "refutes":
                refutes = text.strip()
            elif key in ("new", "new:"):
                changes.append((file, old, text))
    return Edit(crate, name, path, refutes, tuple(changes))


@cache
def text_of(folder, file):
    """The text of a file; empty where there is none."""
    if not os.path.isfile(f"{folder}/{file}"):
        return ""
    with open(f"{folder}/{file}", encoding="utf-8") as it:
        return it.read()


def changed_lines(edit, folder):
    """The lines that an edit changes, by file and number; None where a text isn't in its file exactly once, when the changes
    before it are made."""
    made = {}
    for file, old, new in edit.changes:
        lines = [made.get((file, at), line) for at, line in enumerate(text_of(folder, file).split("\n"))]
        found = [at for at, line in enumerate(lines) if old and old in line]
        if len(found) != 1 or lines[found[0]].count(old) != 1:
            return None
        made[file, found[0]] = lines[found[0]].replace(old, new)
    return made or None


def texts_with(edits, folder):
    """The texts of files with edits made, by the file. The edits are of different functions, so of different lines."""
    texts = {}
    for edit in edits:
        for (file, at), line in changed_lines(edit, folder).items():
            lines = texts.setdefault(file, text_of(folder, file).split("\n"))
            lines[at] = line
    return {file: "\n".join(lines) for file, lines in texts.items()}


def functions_of(edit, folder):
    """The functions in whose bodies an edit changes something; None where one isn't known, or the edit can't be made."""
    found = {function_at(edit.crate, folder, file, at) for file, at in changed_lines(edit, folder) or [("", 0)]}
    return None if None in found else found


def function_at(crate, folder, file, at):
    """The function in whose body a line of a crate's file is; None where there is none."""
    lines = text_of(folder, file).split("\n")
    heads = [(number, head) for number in range(at + 1) for head in [HEAD.match(lines[number])] if head]
    if not file.startswith("src/") or not heads or CLAUSE.match(lines[at]):
        return None
    first, head = heads[-1]
    last = next((it for it in range(first + 1, len(lines)) if lines[it] in (head[1] + "}", head[1] + "{}")), 0)
    impls = [it for it in map(IMPL.match, lines[: first + 1]) if it] if head[1] else []
    if at > last or head[1] and not impls:
        return None
    # (its attributes are a part of it)
    while lines[first - 1].lstrip().startswith("#["):
        first -= 1
    trait, given, kind = impls[-1].groups(default="") if impls else ("", "", "")
    home = declared_in(folder, kind) if kind else file
    modules = [it for it in (home or file)[len("src/") : -len(".rt")].split("/") if it not in ("lib", "main")]
    names = [f"{kind}{trait}{given}", head[2]] if kind else [head[2]]
    return Function("::".join([crate, *modules, *names]), file, first + 1, last + 1)


@cache
def declared_in(folder, kind):
    """The file of a crate that declares a type, by whose module the prover names the type's methods; None where none does."""
    head = re.compile(rf"^(?:pub(?:\([a-z ]+\))? )?(?:struct|enum) {kind}\b", re.M)
    return next((it for it in sources_of(folder) if head.search(text_of(folder, it))), None)


def sources_of(folder):
    """The files of a crate's code."""
    for at, _, names in os.walk(f"{folder}/src"):
        yield from (os.path.relpath(f"{at}/{it}", folder) for it in names if it.endswith(".rt"))


def body_of(function, folder):
    """The text of a function, with its attributes and its contract."""
    return "\n".join(text_of(folder, function.file).split("\n")[function.first - 1 : function.last])


def all_functions(crate, folder):
    """The functions of a crate whose proofs can be left open, as far as their heads are known: none that calls itself, which has no
    proof of its own."""
    found = set()
    for file in sources_of(folder):
        heads = (at for at, line in enumerate(text_of(folder, file).split("\n")) if HEAD.match(line))
        found |= {function_at(crate, folder, file, at) for at in heads}
    return {it for it in found if it and len(re.findall(rf"\b{it.name.rpartition('::')[2]}\(", body_of(it, folder))) < 2}
