"""What the trials share: the files of a folder, read, put there, and compared but for what a format draws."""
import os
import re
import shutil

BLOCK = 512


def read(path):
    """The bytes of a file."""
    with open(path, "rb") as file:
        return file.read()


def write(path, data):
    """Makes a file of these bytes."""
    with open(path, "wb") as file:
        file.write(data)


def files_of(folder):
    """The bytes of each file of a folder, by its name."""
    return {name: read(f"{folder}/{name}") for name in sorted(os.listdir(folder))}


def put(folder, files):
    """Makes the folder hold exactly these files."""
    shutil.rmtree(folder, ignore_errors=True)
    os.mkdir(folder)
    for name, data in files.items():
        write(f"{folder}/{name}", data)


def is_image(name, data):
    return name.endswith(".img") and isinstance(data, bytes)


def undrawn(files):
    """The files without the number of the array in their labels, which a format draws, and what sums it up."""
    drawn = re.compile(rb"^(array [0-9a-f]{32}|sum [0-9a-f]{16})$", re.MULTILINE)
    return {name: drawn.sub(b"", data) if is_image(name, data) else data for name, data in files.items()}


def without_labels(files):
    """The files, of each image without what stands behind its last whole block."""
    return {name: data[: len(data) // BLOCK * BLOCK] if is_image(name, data) else data for name, data in files.items()}
