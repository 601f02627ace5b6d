"""Which edits are tried: those that changed since their line in ci/edits.tried, and of the others as many as there is time for.

The list has a line for each edit, sorted: its name, a sum of what its try rests on, and the day of that try. The sum covers

- the edit's file;
- each function that the edit changes: its path, and its text with the contract; where one isn't known, the whole file;
- the definitions that the files of these functions import, and those that they import in turn, in this crate and below: whole
  files crates/*/specs/*.antt.

It doesn't cover proofs, types, constants, the contracts of functions that are called, or the kit. An edit that a change of these has
made provable is found when its turn comes.

Only `ci/edits --all` writes the list. The gate leaves it as it is, and so would choose the same edits in each run. Therefore the
order of edits with the same day depends on today's date: it is that of a sum of the date and the crate's name.
"""

import hashlib
import os
import re
from functools import cache

from mutants import body_of, changed_lines, functions_of, text_of

ROW = re.compile(r"(\w+/[\w.-]+) ([0-9a-f]{16}) (\d{4}-\d\d-\d\d)")
IMPORT = re.compile(r"\bRattle\.(\w+)\.specs\.([\w.]+)")
NAMED = re.compile(r"crates/(\w+)/must-fail/([\w.-]+\.edit)\b")


def sum_of(*texts):
    """A sum of some texts, in 16 digits."""
    return hashlib.sha256("\0".join(texts).encode()).hexdigest()[:16]


@cache
def imported(tree, file):
    """The files of definitions that a file of the tree imports by itself."""
    found = set()
    for crate, path in IMPORT.findall(text_of(tree, file)):
        names = path.strip(".").split(".")
        # (behind the file's name there may be names of what it defines)
        files = [f"crates/{crate}/specs/{'/'.join(names[:it])}.antt" for it in range(len(names), 0, -1)]
        found |= {*[it for it in files if os.path.isfile(f"{tree}/{it}")][:1]}
    return found


def definitions_below(tree, files):
    """The files of definitions that some files import, with those that they import in turn."""
    found, left = set(), [*files]
    while left:
        new = imported(tree, left.pop()) - found
        found |= new
        left += new
    return sorted(found)


def sum_of_edit(edit, tree):
    """The sum of what the try of an edit rests on."""
    folder = f"{tree}/crates/{edit.crate}"
    functions, files = functions_of(edit, folder), {file for file, _, _ in edit.changes}
    whole = [text for it in sorted(functions or []) for text in (it.name, it.file, body_of(it, folder))]
    whole = whole or [text for it in sorted(files) for text in (it, text_of(folder, it))]
    used = definitions_below(tree, [f"crates/{edit.crate}/{it}" for it in files])
    with open(edit.path, encoding="utf-8") as it:
        return sum_of(edit.label, it.read(), *whole, *[text for it in used for text in (it, text_of(tree, it))])


def read_rows(file):
    """The day of each row of the list, by the edit's name and its sum: after a merge an edit may have two rows. Lines of another form
    are left out."""
    if not os.path.isfile(file):
        return {}
    with open(file, encoding="utf-8") as it:
        return {(row[1], row[2]): row[3] for row in map(ROW.fullmatch, it.read().split("\n")) if row}


def new_rows(rows, sums, refused, today):
    """The rows after some edits were tried. One that was refused gets a row with today's date. One that wasn't gets none, and so counts
    as changed. Of the others, the rows whose edit is in `sums` with the same sum stay."""
    made = {(name, sum): rows[name, sum] for name, sum in sums.items() if (name, sum) in rows and name not in refused}
    return {**made, **{(name, sums[name]): today for name, is_refused in refused.items() if is_refused}}


def write_rows(file, rows):
    """Writes the list."""
    os.makedirs(os.path.dirname(file), exist_ok=True)
    with open(file, "w", encoding="utf-8") as it:
        it.writelines(f"{name} {sum} {day}\n" for (name, sum), day in sorted(rows.items()))


def named_in(page):
    """The names of the edits that a page links to."""
    return {"/".join(it) for it in NAMED.findall(text_of(os.path.dirname(page), os.path.basename(page)))}


def chosen(edits, sums, rows, named, today):
    """The edits that are tried in any case, and the others, those that weren't tried longest first. Those of one day come crate by
    crate, since edits of one crate share a check."""
    days = {it: rows.get((it.label, sums[it.label])) for it in edits}
    always = [it for it in edits if not days[it] or it.label in named]
    others = [it for it in edits if it not in always]
    others.sort(key=lambda it: (days[it], sum_of(it.crate, today), sum_of(it.label, today)))
    return always, others
