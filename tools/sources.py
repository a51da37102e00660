"""What the tools beside it read: the definitions of specs/ and the functions of src/."""
import os
import re
import signal

# a reader of what a tool prints may end early
signal.signal(signal.SIGPIPE, signal.SIG_DFL)

TOP = os.path.dirname(os.path.dirname(os.path.abspath(__file__)))

# a definition, and what ends the one above it without being one, as an item of specs/ begins
HEAD = re.compile(r"(?P<how>(?:(?:abbrev|unfoldable|pub|record|data) )+)(?P<name>[A-Za-z_][A-Za-z0-9_-]*)(?= |$)")
OTHER = re.compile(r"(?:abbrev|unfoldable|pub|use|mod|module) |[^ ]+ : ")
USE = re.compile(r"(?:pub )?use ")
WORD = re.compile(r"[A-Za-z_][A-Za-z0-9_-]*")
FUNCTION = re.compile(r"(?P<pad> *)(?:pub(?:\([a-z]+\))? )?(?:const )?fn (?P<name>[a-z_][a-z0-9_]*)")
# a comment to the end of its line, by the end of the file's name
COMMENT = {".antt": re.compile(r"(?:(?<=\s)|^)--.*", re.MULTILINE),
           **dict.fromkeys((".rt", ".rs"), re.compile(r"(?:(?<=\s)|^)//.*", re.MULTILINE))}


def text_of(path):
    with open(os.path.join(TOP, path), encoding="utf-8") as file:
        return file.read()


def code_of(path):
    """The text of a file without its comments."""
    comment = COMMENT.get(os.path.splitext(path)[1])
    return comment.sub("", text_of(path)) if comment else text_of(path)


def crates():
    """The crates, each after those that it stands on, as crates.txt lists them."""
    lines = [line.split("#")[0].strip() for line in text_of("crates.txt").split("\n")]
    stands = {line.split(":")[0]: line.split(":")[1].split() for line in lines if line}
    done = []

    def visit(name):
        if name in stands and name not in done:
            for below in stands[name]:
                visit(below)
            if name not in done:
                done.append(name)

    for name in stands:
        visit(name)
    return done


def files(crate, part, end):
    folder = f"crates/{crate}/{part}"
    if not os.path.isdir(f"{TOP}/{folder}"):
        return []
    found = []
    for at, below, names in os.walk(f"{TOP}/{folder}"):
        below.sort()
        found += [os.path.relpath(f"{at}/{name}", TOP) for name in sorted(names) if name.endswith(end)]
    return found


def module(path):
    return os.path.basename(path).rsplit(".", 1)[0]


class Item:
    """What begins at the column of a file's definitions, with the lines that go on with it."""

    def __init__(self, number, comment, line):
        self.number, self.comment, self.lines = number, comment, [line]

    def text(self):
        """Its words in one line, without comments: what does not depend on how the lines are broken."""
        return " ".join(COMMENT[".antt"].sub("", "\n".join(self.lines)).split())


def items_of(text):
    """The head comment of a file of specs/ or proofs/ and its items, in their order.

    A line goes on with the item above it where it stands deeper, or begins with a closing bracket.
    """
    head, found, comment, column = None, [], [], 0
    for number, line in enumerate(text.split("\n"), 1):
        bare, deep = line.strip(), len(line) - len(line.lstrip())
        if bare.startswith("--") and deep <= column:
            comment.append(bare[2:].strip())
            continue
        if comment and not found and (not bare or USE.match(bare)):
            head = joined(comment)
        if bare and found and (deep > column or bare[0] in ")]}"):
            found[-1].lines.append(line)
        elif bare:
            found.append(Item(number, joined(comment), line))
            # what follows stands in a module with parameters; one within it is one item
            column = 2 if line.startswith("module _") else deep
        comment = []
    return head or "", found


class Definition:
    def __init__(self, crate, path, name, public, line, comment):
        self.crate, self.path, self.name, self.public, self.line = crate, path, name, public, line
        self.comment, self.items = comment, []

    def words(self):
        """The words of the definition, without those of its comments."""
        return {word for it in self.items for word in WORD.findall(it.text())}


def definitions_of(crate, path):
    """The head comment of a file of specs/ and its definitions, in their order."""
    head, items = items_of(text_of(path))
    found, current = [], None
    for it in items:
        start = HEAD.match(it.text())
        if start and start.group("name") not in ("mod", "use"):
            public = "pub" in start.group("how").split()
            current = Definition(crate, path, start.group("name"), public, it.number, it.comment)
            found.append(current)
        elif OTHER.match(it.text()):
            current = None
        if current is not None:
            current.items.append(it)
    return head, found


def joined(comment):
    return " ".join(line for line in comment if line).strip()


def definitions():
    return [it for crate in crates() for path in files(crate, "specs", ".antt") for it in definitions_of(crate, path)[1]]


class Function:
    def __init__(self, crate, path, name, line):
        self.crate, self.path, self.name, self.line = crate, path, name, line
        self.clauses = []

    def text(self):
        return "\n".join(self.clauses)


def functions_of(crate, path):
    """The free functions of a file of src/, each with its clauses."""
    found, current = [], None
    for number, line in enumerate(text_of(path).split("\n"), 1):
        start = FUNCTION.match(line)
        if start and not start.group("pad"):
            current = Function(crate, path, start.group("name"), number)
            found.append(current)
        elif line.startswith("{"):
            current = None
        if current is not None:
            current.clauses.append(re.sub(r"^\s*//.*", "", line))
    return found


def functions():
    return [it for crate in crates() for path in files(crate, "src", ".rt") for it in functions_of(crate, path)]
