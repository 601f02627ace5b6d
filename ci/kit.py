"""All that ci/edits and ci/library use of a kit's command `rt`: names of its code, what they answer, and texts of its messages.

`rt` has no command that tries several edits in one check. So ci/edits reads the code of `rt` as a module, whose names may change
from kit to kit. open_kit looks for them once, before any work; ci/test_edits shows whether they still mean the same.

The kits 13b and 13f have all of them. A common check counts only where it names the goal that an edit refutes. Where a kit says that
otherwise, each edit is tried by `rt` alone in the end: this takes longer and comes to the same.
"""

import importlib.machinery
import importlib.util
import os
import re
import shutil
from operator import attrgetter

# how each check is made
FLAGS = ["--jobs", "1"]
# Names of the module `rt`: what each is, or is given and answers.
NAMES = {
    "rtlib.RATTLE": "the prover's file",
    "rtlib.guarded": "(): has to be called in the main thread before must_fail is called in another one",
    "rtlib.crates_below": "(folder): the crates at or below a folder, lowest first; each has a name, a folder, and that of its library, rlib",
    "rtlib.Crate.below": "(self): the repository's libraries below a crate, lowest first",
    "rtlib.Crate.words": "(self, flags): the words of `rattle check` for a crate, as a list",
    "rtlib.Crate.count": "(self, bytes): how often these bytes are in a crate's sources",
    "rtlib.Crate.is_built": "(self): whether a library is built from its sources as they are",
    "must_fail": "(crate, file of an edit, flags): what a try of the edit comes to, and a text that says so, as a pair",
}
# The names, in the module `rt`, of what must_fail answers where an edit is refused. 13b has none, and answers True.
REFUSED = ("REFUSED", "AT_LIMIT")

# a goal that isn't proved: its file and line
GOAL = re.compile(r"(?:note: )?(?:\./)?(src/\S+?):(\d+):\d+: it is not proved that")
# a function that isn't proved: its name
UNPROVED = re.compile(r"fn (\S+): (?:not proved|no proof)")
# a check of some functions that came to its end
ENDED = re.compile(r"^only=\d+ (?:proved|holes)=\d+", re.M)
# a proof that is left open, and the flag with which a check goes on past it
HOLE = """use Rattle.{crate}.proofs.{path}.Statement.{{statement}}

pub {name}_spec : {{M : Type 1}} → statement M
{name}_spec = ?
"""
HOLES = ["--allow-holes"]
# what is said of such a proof where there can be none, as of a function that calls itself: the proof's folder
RESERVED = re.compile(r"^\./(proofs/\S+)/Proof\.antt: error\[reserved-name\]", re.M)
# an error in a proof, behind its file and where it is there
ERROR = ": error: "
# what `rt ci` says of a crate that it has proved or that an earlier run has: its name
PROVED = re.compile(r"^rt: (\S+) (?:proved$|is kept: )", re.M)
# the name of a goal that isn't proved, in such a line or in such an error; what it is called begins so where it is a clause of an
# `ensures`
NAME, ENSURED = re.compile(r"\(`([^`\s]+)`\)|: error: `([^`\s]+)`: "), "returns-clause-"
# words of an error that come of a name which the edit took away, and tell little of a contract
GONE = re.compile(r"has no field|is not in scope|has no `|was not admitted|is no name")


class Unknown(Exception):
    """A kit that can't be used, and why, in one line."""


class Kit:
    """A known kit: its command's file, and the command as a module."""

    def __init__(self, command, rt):
        self.command, self.rt = command, rt
        self.refused = [getattr(rt, it) for it in REFUSED if hasattr(rt, it)]
        rt.rtlib.guarded()

    def crates_below(self, folder):
        """The crates at or below a folder, lowest first."""
        return self.rt.rtlib.crates_below(folder)

    def check_words(self, crate, only, kept, has_holes):
        """The words of a check of some functions of a crate, over what a folder keeps; whether proofs are left open."""
        words = crate.words([*FLAGS, *(HOLES if has_holes else []), *only])
        return [self.rt.rtlib.RATTLE, "check", *words, "--incremental", kept]

    def try_alone(self, crate, edit):
        """Whether the edit in a file is refused, and what `rt` says of it. An answer that isn't known is no refusal."""
        answer = self.rt.must_fail(crate, edit, FLAGS)
        if type(answer) is tuple and len(answer) == 2 and type(answer[1]) is str:
            return answer[0] is True or answer[0] in self.refused, answer[1]
        return False, f"NOT REFUSED, as far as is known: must_fail answered {answer!r:.200}"


def open_kit(command):
    """The kit of a command; raises Unknown where there is none, or one that can't be used."""
    file = shutil.which(command)
    if not file:
        raise Unknown(f"there is no command {command}: put it on the path, or name its file, as in RT=FILE")
    file = os.path.abspath(file)
    rt = load(file)
    try:
        attrgetter(*NAMES)(rt)
    except AttributeError as why:
        raise Unknown(f"{file} isn't of a kit that ci/kit.py knows: {why}; `rt must-fail` tries edits one by one") from why
    return Kit(file, rt)


def load(file):
    """The command `rt` as a module."""
    loader = importlib.machinery.SourceFileLoader("rt_command", os.path.realpath(file))
    made = importlib.util.module_from_spec(importlib.util.spec_from_loader(loader.name, loader))
    try:
        loader.exec_module(made)
    except (Exception, SystemExit) as why:
        raise Unknown(f"{file} can't be read as a module ({type(why).__name__}); the kits that ci/kit.py knows are 13b and 13f") from why
    return made


def is_up_to_date(library):
    """Whether a library is built from its sources as they are. `rt ci`, which builds all of them, leaves no stamp."""
    stamp = f"{os.path.dirname(library.rlib)}/stamp"
    return os.path.isdir(library.rlib) and (not os.path.isfile(stamp) or library.is_built())
