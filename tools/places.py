"""Whether the tools lie in the sources or in an install, and where the program is then."""
import os
import re
import sys

HERE = os.path.dirname(os.path.realpath(__file__))
TOP = os.path.dirname(HERE)
IS_INSTALL = not os.path.exists(os.path.join(TOP, "crates.txt"))
# The link that an install has beside the tools, and the launcher of the sources.
NEAR = (os.path.join(HERE, "paraid"), os.path.join(TOP, "paraid"))


def program():
    """The program beside the tools, or else the one of the PATH."""
    return next((it for it in NEAR if os.path.isfile(it)), "paraid")


def told(text):
    """A text about the tools, each by the name that it has here."""
    return re.sub(r"\btools/([a-z]+)(?![a-z.])", r"paraid-\1", text) if IS_INSTALL else text


def misused(words):
    """Tells how a tool is used where its words are wrong: the status for that."""
    print(told(f"usage: tools/{words}"), file=sys.stderr)
    return 2
