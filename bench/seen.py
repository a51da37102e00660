"""What is seen of a program that ran over an array: the blocks that it left, and its calls on them. bench/run and
tools/try-plain compare the program with bench/plain by it."""
import os
import re
import shutil
import subprocess

BLOCK = 512
HERE = os.path.dirname(os.path.abspath(__file__))
PLAIN = f"{HERE}/plain/main.rs"
RUSTC = ["rustc", "--edition", "2021", "-O"]
# bench/plain takes slices apart by functions that older ones do not have.
LEAST_RUSTC = (1, 88)
# What stands before the words of a program whose calls are to be seen. The name of the log comes between.
STRACE = ["strace", "-y", "-xx", "-s", "100000", "-e", "trace=pread64,pwrite64,fdatasync,fsync", "-o"]
CALL = re.compile(r'(\w+)\(\d+<([^>]*)>(?:, ("[^"]*"), (\d+), (\d+))?\) += (\d+)')


def has_rustc():
    """Whether there is a rustc that builds bench/plain."""
    if not shutil.which("rustc"):
        return False
    said = subprocess.run(["rustc", "--version"], stdout=subprocess.PIPE, text=True).stdout
    version = re.match(r"rustc (\d+)\.(\d+)", said)
    return bool(version) and (int(version[1]), int(version[2])) >= LEAST_RUSTC


def blocks_of(folder):
    """Gives the blocks of each image, and each sidecar. A label may stand behind the last block."""
    left = {}
    for name in sorted(os.listdir(folder)):
        if re.fullmatch(r"disk-\d\.(img|power)", name):
            with open(f"{folder}/{name}", "rb") as it:
                left[name] = it.read()
            if name.endswith(".img"):
                left[name] = left[name][: len(left[name]) // BLOCK * BLOCK]
    return left


def calls_of(log):
    """Gives the calls of a program on the blocks of its images, each with its name, file, bytes, length, place and
    answer. Those on a label, and the sync of the data that follows the writing of one, are left out."""
    found, labelled = [], set()
    with open(log) as it:
        for line in it:
            said = CALL.match(line)
            file = os.path.basename(bytes.fromhex(said[2].replace("\\x", "")).decode()) if said else ""
            if not file.endswith(".img"):
                continue
            if int(said[4] or 0) % BLOCK:
                if said[1] == "pwrite64":
                    labelled.add(file)
                continue
            if said[1] != "fdatasync" or file not in labelled:
                found.append((said[1], file, *said.groups()[2:]))
            if not said[3]:
                labelled.discard(file)
    return found
