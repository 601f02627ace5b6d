"""Finds a Python that has lark. Debian's python3-lark belongs to the system's one, which may not be the first on the path."""

import importlib.util
import os
import sys

SYSTEM = "/usr/bin/python3"


def need_lark() -> None:
    """Starts this program again with the system's Python where this one lacks lark."""
    if importlib.util.find_spec("lark") is not None:
        return
    if os.path.exists(SYSTEM) and os.path.realpath(sys.executable) != os.path.realpath(SYSTEM):
        os.execv(SYSTEM, [SYSTEM, *sys.argv])
    sys.exit("x10c: it needs lark: apt-get install python3-lark, or pip install lark")
