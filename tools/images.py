"""The images of an array, only read: where each thing lies on them, and what its log disks say, and disk 2 of them.

tools/state and tools/locate stand on this. Places and forms are those of docs/ARCHITECTURE.md and of
crates/paraid_record. As in the program, a block is a meta only if it is the one spelling of a meta in
range: there is no sum to test. A missing image, one that is no file, and a sidecar whose word is
neither `spinning` nor `parked` are absent disks; a link counts as its file, and one that leads nowhere
is a disk that is shut. The size of a disk is its image's length divided by 512, rounded down: a label
may follow the last block, of the form of crates/paraid_imgrack."""
import contextlib
import ctypes
import errno
import io
import os
import pwd
import re
import stat
import struct
import sys
from dataclasses import dataclass
from typing import List, Optional, Tuple

BLOCK = 512
LOG = 100
ZERO = bytes(BLOCK)
MOST_DISKS = 8
WORN = 2**62
LONGEST_WORD = 64
WORDS = (b"spinning", b"parked", b"failed")
# The disk whose places 0 and 1 bear witness against log disks 0 and 1.
BEARER = 2
AWAY = ("absent", "shut")
OF_DEVICE = (errno.EIO, errno.ENXIO, errno.ENODEV, errno.EBADMSG, errno.EUCLEAN, errno.EREMOTEIO, errno.ENOMEDIUM)
# The options of a file system that takes no writes; newer kernels say the second one of ext4 after an error.
READ_ONLY = frozenset(("ro", "emergency_ro"))
TAKES_NO_WRITES = "a file of disk {} takes no writes: it is immutable or append-only, or its file system is read-only"


class Geometry:
    """Disks, rows and gears, and the place of each row, copy and map block."""

    def __init__(self, disks, rows, gears):
        self.disks, self.rows, self.gears = disks, rows, list(gears)
        self.blocks = rows * (disks - 1)
        self.map_blocks = -(-rows // 512)
        self.regions = {}
        self.size = LOG + self.map_blocks + rows
        for gear in self.gears[:-1]:
            self.regions[gear] = self.size
            self.size += self.stripes(gear)

    def stripes(self, gear):
        return -(-self.rows * (self.disks - gear) // (gear - 1)) if gear < self.disks else 0

    def hard_place(self, row):
        return LOG + self.map_blocks + row

    def soft_place(self, gear, stripe):
        return self.regions[gear] + stripe

    def parity_disk(self, row):
        return self.disks - 1 - row % self.disks

    def block_at(self, row, disk):
        """The block of this row on this disk, None for its parity."""
        parity = self.parity_disk(row)
        return None if disk == parity else row * (self.disks - 1) + disk - (disk > parity)

    def soft_of(self, gear, row, disk):
        """The stripe of a cell's copy, and the disk where it lies."""
        number = row * (self.disks - gear) + disk - gear
        stripe, index = divmod(number, gear - 1)
        return stripe, index + (index >= self.soft_parity(gear, stripe))

    def soft_parity(self, gear, stripe):
        return gear - 1 - stripe % gear

    def cell_at(self, gear, stripe, disk):
        """The row and disk of the cell whose copy this disk has in a stripe; None for parity and pads."""
        parity = self.soft_parity(gear, stripe)
        if disk == parity:
            return None
        number = stripe * (gear - 1) + disk - (disk > parity)
        row, parked = divmod(number, self.disks - gear)
        return (row, gear + parked) if row < self.rows else None

    def rebuild_units(self, gear, disk):
        return self.rows + (self.stripes(gear) if disk < gear else 0) + (self.map_blocks if disk < 2 else 0)


def geometry_fault(disks, rows, gears):
    """The first cause for which there is no such array, as (`disks`, value), (`rows`, value) or
    (`gears`, index); None where there is one."""
    if not 3 <= disks <= 8:
        return "disks", disks
    if not 1 <= rows <= 65536:
        return "rows", rows
    for at, gear in enumerate(gears):
        if gear < 3 or gear > disks or (at > 0 and gear <= gears[at - 1]):
            return "gears", at
    return ("gears", len(gears)) if not gears or gears[-1] != disks else None


@dataclass
class Meta:
    """The setup and the state of an array, as a log disk keeps them."""

    version: int
    geometry: Geometry
    rate: int
    service: int
    up: int
    down: int
    mode: int
    windows: List[int]
    ration: int
    epoch: int
    writes: int
    ticks: int
    gear: int
    phase: int
    to: int
    out: Optional[int]
    fresh: bool
    fill: int
    rebuilt: int
    spins: List[int]
    spinning_mj: int
    parked_mj: int
    spinup_mj: int
    burst: int
    period: int

    def setup(self):
        """What the array is configured to be."""
        it = self.geometry
        return (it.disks, it.rows, it.gears, self.rate, self.service, self.up, self.down, self.mode, self.windows,
                self.ration, self.burst, self.period, self.spinning_mj, self.parked_mj, self.spinup_mj)

    def allowance(self):
        """The spin-ups that a disk may have by now."""
        return min(self.ration, self.burst + self.ticks // self.period)

    def first_parked(self):
        """The first disk that the gear, or a shift under way, leaves parked."""
        return self.to if self.phase else self.gear

    def rising_to(self):
        return self.to if self.phase == UP else 0


STEADY, DOWN, UP = 0, 1, 2
NO_DISK = 255
FORM = struct.Struct(">8sHBB8sIIIBBBB3HHQQQBBBBB3xII8HIIIHI")


def read_meta(block):
    """The meta that a block spells, None where it spells none."""
    (magic, version, disks, count, list_of_gears, rows, rate, service, up, down, mode, _used, first, second, third,
     ration, epoch, writes, ticks, gear, phase, to, out, fresh, fill, rebuilt, *rest) = FORM.unpack_from(block)
    spins, (spinning, parked, spinup, burst, period) = rest[:8], rest[8:]
    gears = list(list_of_gears[:count])
    if not 1 <= version <= 2 or count > 8 or geometry_fault(disks, rows, gears):
        return None
    if version == 1:
        burst, period = ration, 1
    meta = Meta(version, Geometry(disks, rows, gears), rate, service, up, down, mode, [first, second, third],
                ration, epoch, writes, ticks, gear, phase, to, None if out == NO_DISK else out, fresh == 1,
                fill, rebuilt, spins, spinning, parked, spinup, burst, period)
    return meta if is_in_range(meta) and spelling(meta) == bytes(block) else None


def spelling(meta):
    """The one block that spells a meta."""
    it = meta.geometry
    data = FORM.pack(
        b"PARAIDAR", meta.version, it.disks, len(it.gears), bytes(it.gears), it.rows, meta.rate, meta.service,
        meta.up, meta.down, meta.mode, sum(length > 0 for length in meta.windows), *meta.windows, meta.ration,
        meta.epoch, meta.writes, meta.ticks, meta.gear, meta.phase, meta.to,
        NO_DISK if meta.out is None else meta.out, meta.fresh, meta.fill, meta.rebuilt, *meta.spins,
        meta.spinning_mj, meta.parked_mj, meta.spinup_mj,
        *((meta.burst, meta.period) if meta.version > 1 else (0, 0)))
    return data.ljust(BLOCK, b"\0")


def is_in_range(meta):
    return is_setup_in_range(meta) and is_state_in_range(meta) and are_spins_in_range(meta)


def is_setup_in_range(meta):
    first, second, third = meta.windows
    return (1 <= meta.rate <= 65536 and 1 <= meta.service <= 1048576 and 1 <= meta.up <= 100
            and 1 <= meta.down <= 100 and meta.mode <= 1 and 1 <= first <= 1024 and second <= 1024
            and third <= 1024 and (second > 0 or third == 0) and 1 <= meta.burst <= meta.ration
            and meta.period >= 1 and max(meta.spinning_mj, meta.parked_mj, meta.spinup_mj) <= 1048576)


def is_state_in_range(meta):
    it, gears = meta.geometry, meta.geometry.gears
    if meta.epoch < 1 or meta.gear not in gears or meta.phase > UP:
        return False
    at = gears.index(meta.gear)
    lower, higher = gears[at - 1] if at else None, gears[at + 1] if at + 1 < len(gears) else None
    if meta.to != (0, lower, higher)[meta.phase]:
        return False
    if meta.fill > (it.stripes(meta.to) if meta.phase else 0):
        return False
    if meta.out is None:
        return not meta.fresh and meta.rebuilt == 0
    most = it.rebuild_units(meta.gear, meta.out) if meta.fresh else 0
    return meta.out < it.disks and meta.rebuilt <= most and meta.fill == 0 and meta.phase != DOWN


def are_spins_in_range(meta):
    disks, allowed, parked = meta.geometry.disks, meta.allowance(), meta.first_parked()
    return all(count <= allowed - (disk >= parked) if disk < disks else count == 0
               for disk, count in enumerate(meta.spins))


def read_targets(block, geometry):
    """The disks and places that a list of targets spells, None where it spells none."""
    count = int.from_bytes(block[:2], "big")
    end = 2 + 5 * count
    if count > 96 or any(block[end:]):
        return None
    targets = [struct.unpack_from(">BI", block, 2 + 5 * at) for at in range(count)]
    fit = all(disk < geometry.disks and LOG <= place < geometry.size
              and (disk < 2 or place >= LOG + geometry.map_blocks) for disk, place in targets)
    return targets if fit and len(set(targets)) == count else None


def size_text(count):
    """A number of bytes for people."""
    for unit, name in ((2**30, "GiB"), (2**20, "MiB"), (2**10, "KiB")):
        if count >= unit:
            return f"{count / unit:,.1f} {name}"
    return f"{count} bytes"


def shown(text):
    """A text of others as it is told: no character of it does anything in a terminal or begins a line."""
    return "".join(it if it.isprintable() else ascii(it)[1:-1] for it in text)


def is_folder(path):
    """Whether there is such a folder. What this user may not know raises PermissionError."""
    try:
        return stat.S_ISDIR(os.stat(path).st_mode)
    except PermissionError:
        raise
    except OSError:
        return False


def found(name):
    """What stands under a name: a `file`; `nothing`; `none`, where it is no file or its device fails; or
    `shut`, where it is there and cannot be opened. What this user may not know raises PermissionError."""
    try:
        return "file" if stat.S_ISREG(os.stat(name).st_mode) else "none"
    except PermissionError:
        raise
    except OSError as fault:
        if not os.path.lexists(name):
            return "nothing"
        return "none" if fault.errno in OF_DEVICE else "shut"


def read_file(name, most):
    """The first bytes of a file, and when it was written. Nothing else is opened, as others may have put it there:
    a pipe keeps its reader waiting, and a device may do something by the open alone."""
    place = os.open(name, os.O_PATH | os.O_CLOEXEC)
    try:
        it = os.fstat(place)
        if not stat.S_ISREG(it.st_mode):
            raise OSError(errno.EINVAL, "it is no file")
        try:
            file = open(f"/proc/self/fd/{place}", "rb")
        except FileNotFoundError:  # (without /proc its name alone leads to it)
            file = open(os.open(name, os.O_RDONLY | os.O_CLOEXEC | os.O_NOCTTY | os.O_NONBLOCK), "rb")
        with file:
            return file.read(most), it.st_mtime_ns
    except OSError as fault:
        raise OSError(fault.errno, fault.strerror, name) from None
    finally:
        os.close(place)


class Folder:
    """The image files of a folder. What cannot be read is zeros, or raises OSError where it must be read.
    A disk whose device fails in a read is absent from then on, as in a mount."""

    def __init__(self, path, failed=()):
        self.path, self.files, self.failed = path, {}, set(failed)

    def close(self):
        for file in self.files.values():
            os.close(file)
        self.files = {}

    def image(self, disk):
        return os.path.join(self.path, f"disk-{disk}.img")

    def power(self, disk):
        """`spinning`, `parked`, `absent`, or `shut` where a file is there and cannot be opened, as a link
        to a drive that is not mounted."""
        word = self.word(os.path.join(self.path, f"disk-{disk}.power"))
        if word in ("absent", "shut"):
            return word
        if disk in self.failed:
            return "absent"
        return {"file": word, "shut": "shut"}.get(found(self.image(disk)), "absent")

    def powers(self):
        return [self.power(disk) for disk in range(MOST_DISKS)]

    @staticmethod
    def word(sidecar):
        there = found(sidecar)
        if there != "file":
            return {"nothing": "spinning", "shut": "shut"}.get(there, "absent")
        text, _ = read_file(sidecar, LONGEST_WORD + 1)
        word = text.rstrip(b" \t\n\f\r") if len(text) <= LONGEST_WORD else b""
        return word.decode() if word in (b"spinning", b"parked") else "absent"

    def has_failed(self, disk):
        """Whether the sidecar of a disk says so."""
        sidecar = os.path.join(self.path, f"disk-{disk}.power")
        return found(sidecar) == "file" and read_file(sidecar, LONGEST_WORD)[0].strip() == b"failed"

    def has_labels(self):
        """Whether a label tells that an array is here. Those of lost disks count, and no parked image is opened."""
        return any(self.label(disk) for disk in range(MOST_DISKS) if self.power(disk) != "parked")

    def is_read_only(self, disk, devices):
        """Whether the image or the sidecar of a disk lies on one of these devices, or takes no writes itself."""
        names = self.image(disk), os.path.join(self.path, f"disk-{disk}.power")
        return any(found(name) == "file" and (os.stat(name).st_dev in devices or is_fixed(name)) for name in names)

    def size(self, disk):
        """The blocks of a disk, 0 where there is none."""
        try:
            return min(os.stat(self.image(disk)).st_size // BLOCK, 2**32 - 1)
        except OSError:
            return 0

    def read(self, disk, place, count=1):
        """So many blocks; those past the end are zeros."""
        try:
            data = os.pread(self.opened(disk), BLOCK * count, BLOCK * place)
        except OSError as fault:
            if fault.errno in OF_DEVICE:
                self.failed.add(disk)
            raise
        whole = len(data) - len(data) % BLOCK
        return data[:whole].ljust(BLOCK * count, b"\0")

    def label(self, disk):
        """The label behind the last block; BARE where nothing, zeros or a text of another length stands there; None
        where a label was torn, the file has no block, or no image can be read."""
        try:
            file = self.opened(disk)
            length = os.fstat(file).st_size
            if length < BLOCK:
                return None
            text = os.pread(file, LABEL_SIZE, length - LABEL_SIZE) if length % BLOCK == LABEL_SIZE else b""
            return read_label(text) if any(text) else BARE
        except PermissionError:
            raise
        except OSError:
            return None

    def opened(self, disk):
        if disk not in self.files:
            flags = os.O_RDONLY | os.O_CLOEXEC | os.O_NONBLOCK
            try:
                # reading an image is not to write to its file system
                self.files[disk] = os.open(self.image(disk), flags | getattr(os, "O_NOATIME", 0))
            except PermissionError:
                self.files[disk] = os.open(self.image(disk), flags)
        return self.files[disk]


def user_name(number):
    try:
        return pwd.getpwuid(number).pw_name
    except KeyError:
        return f"user {number}"


def has_access_list(name):
    with contextlib.suppress(OSError):
        return "system.posix_acl_access" in os.listxattr(name)
    return False


class Owner:
    """The user to whom a folder belongs."""

    def __init__(self, path):
        self.number = os.stat(path).st_uid
        self.name, self.groups = user_name(self.number), ()
        with contextlib.suppress(KeyError):
            self.groups = os.getgrouplist(self.name, pwd.getpwuid(self.number).pw_gid)

    def may_open(self, name):
        """Whether it may read and write a file, by the owner and the mode of that. One with an access list is passed over."""
        it = os.stat(name)
        shift = 6 if it.st_uid == self.number else 3 if it.st_gid in self.groups else 0
        return self.number == 0 or it.st_mode >> shift & 6 == 6 or has_access_list(name)

    def barred_from(self, folder, disk):
        """Why it cannot mount the array with a file of a disk. An image counts where its sidecar has a mount look at it."""
        sidecar, image = os.path.join(folder.path, f"disk-{disk}.power"), folder.image(disk)
        names = [sidecar] if folder.power(disk) in AWAY else [sidecar, image]
        for name in names:
            if found(name) == "file" and not self.may_open(name):
                it, short = os.stat(name), os.path.basename(name)
                if it.st_uid == self.number:
                    return f"{short} has mode {it.st_mode & 0o777:03o}: {self.name}, its owner, cannot mount this"
                return f"{short} belongs to {user_name(it.st_uid)}, and the folder to {self.name}: its owner cannot mount this"
        return None


def is_fixed(name):
    """Whether a file takes no writes in its place, whoever asks, though its mount does: it is immutable or
    append-only, or in a subvolume of btrfs that is read-only. Where only this user may not write, others may."""
    if is_append_only(name):
        return True
    if os.access(name, os.W_OK) or os.statvfs(name).f_flag & os.ST_RDONLY:
        return False
    # (os.access does not say why)
    library = ctypes.CDLL(None, use_errno=True)
    return library.access(os.fsencode(name), os.W_OK) != 0 and ctypes.get_errno() in (errno.EPERM, errno.EROFS)


AT_FDCWD, STATX_ATTR_APPEND = -100, 0x20
STATX = struct.Struct("=8xQ240x")


def is_append_only(name):
    """Whether a file can only grow. It is not opened for that: os.access says that it may be written."""
    library = ctypes.CDLL(None)
    if not hasattr(library, "statx"):
        return False
    told = ctypes.create_string_buffer(STATX.size)
    return library.statx(AT_FDCWD, os.fsencode(name), 0, 0, told) == 0 and bool(STATX.unpack(told.raw)[0] & STATX_ATTR_APPEND)


def read_only_devices(mounts="/proc/self/mountinfo"):
    """The devices whose file systems take no writes, as ext4 after an error. A mount that is read-only for
    this process alone is none of them: others may write there."""
    try:
        with open(mounts, encoding="utf-8", errors="surrogateescape") as file:
            lines = [line.split() for line in file]
    except OSError:
        return set()
    return {os.makedev(*map(int, words[2].split(":"))) for words in lines if not READ_ONLY.isdisjoint(words[-1].split(","))}


@dataclass
class Side:
    """What a log disk says: `absent`, `blank`, `bad`, or `formed` with its gate, meta and batch."""

    kind: str
    opened: bool = False
    meta: Optional[Meta] = None
    batch: Tuple = ()


def side_of(log):
    """What the first 100 blocks of a log disk say; None is no disk."""
    if log is None:
        return Side("absent")
    block = [log[BLOCK * at : BLOCK * (at + 1)] for at in range(LOG)]
    opened = block[0][0] != 0
    if not opened:
        meta = read_meta(block[1])
        if meta is None:
            return Side("blank" if block[1] == ZERO else "bad")
        return Side("formed", False, meta)
    meta = read_meta(block[2])
    targets = meta and read_targets(block[3], meta.geometry)
    if targets is None:
        return Side("bad", True)
    return Side("formed", True, meta, tuple((d, p, block[4 + at]) for at, (d, p) in enumerate(targets)))


def standing(sides):
    """The number of the log disk that counts: the greater epoch; of equal ones a closed one, then disk 0."""
    formed = [x for x in (0, 1) if sides[x].kind == "formed"]
    return min(formed, key=lambda x: (-sides[x].meta.epoch, sides[x].opened, x), default=None)


def are_paired(a, b):
    """Whether what two log disks say fits together: it is the same, or one is a step ahead."""
    if a.opened == b.opened:
        return spelling(a.meta) == spelling(b.meta) and a.batch == b.batch
    ahead, behind = (a.meta, b.meta) if a.opened else (b.meta, a.meta)
    if spelling(ahead) == spelling(behind):
        return True
    return (ahead.epoch == behind.epoch + 1 and ahead.setup() == behind.setup()
            and (None in (ahead.out, behind.out) or ahead.out == behind.out))


def refusal(folder, sides, powers):
    """The line by which the program would refuse to mount these disks, None where it would not."""
    if "shut" in powers:
        return f"image {powers.index('shut')}"
    for x in (0, 1):
        if powers[x] == "parked":
            return f"power {x}"
    if all(side.kind in ("absent", "blank") for side in sides):
        return "notformatted"
    x = standing(sides)
    named = None if x is None else sides[x].meta.out
    for line, opened in (("badlog", True), ("badmeta", False)):
        for y in (0, 1):
            if sides[y].kind in ("bad", "blank") and sides[y].opened == opened and y != named:
                return f"{line} {y}"
    meta, batch = sides[x].meta, sides[x].batch
    if named == x:
        return f"badmeta {x}"
    other = sides[1 - x]
    if other.kind == "formed" and named != 1 - x and not are_paired(sides[x], other):
        return f"{'badlog' if sides[x].opened and other.opened else 'badmeta'} {1 - x}"
    return refusal_by_standing(folder, powers, meta, batch) or refusal_by_witness(folder, powers, x)


def witnesses(folder):
    """The log disks against which disk 2 bears witness: each was taken out, and an image of it from then is old.
    None are known where disk 2 does not spin or cannot be read."""
    if folder.power(BEARER) != "spinning":
        return []
    try:
        return [x for x in (0, 1) if folder.read(BEARER, x)[0] != 0]
    except PermissionError:
        raise
    except OSError:
        return []


def refusal_by_witness(folder, powers, x):
    """Log disk `x` stands. Without the other one it is not served where it was taken out before."""
    other = 1 - x
    if powers[other] != "absent" or powers[BEARER] == "absent":
        return None
    try:
        opened = folder.read(BEARER, x)[0] != 0
    except PermissionError:
        raise
    except OSError:
        return f"two {other} {BEARER}"
    return f"two {x} {other}" if opened else None


def refusal_by_standing(folder, powers, meta, batch):
    disks, needed = range(meta.geometry.disks), meta.geometry.size
    for disk in disks:
        found = folder.size(disk)
        if powers[disk] != "absent" and not (disk == meta.out and not meta.fresh) and found < needed:
            return f"size {disk} {found} {needed}"
    for disk in disks:
        live = disk < meta.gear or any(target[0] == disk for target in batch)
        if powers[disk] == "parked" and (meta.fresh if disk == meta.out else live):
            return f"power {disk}"
    lacking = [disk for disk in disks if powers[disk] == "absent" and disk != meta.out]
    down = lacking if meta.out is None else [meta.out] + lacking
    if len(down) > 1:
        return f"two {down[0]} {down[1]}"
    count = max(meta.epoch, meta.writes)
    return f"worn {count}" if count >= WORN else None


@dataclass
class Label:
    """What the text behind the blocks of an image says of it."""

    array: str
    disk: int
    disks: int
    generation: int
    known: List[int]


class Bare:
    """In the place of a label: there is none, and none was torn. It is false, as None is."""

    def __bool__(self):
        return False


BARE = Bare()
LABEL_SIZE = 384
LABEL = re.compile(
    rb"paraid label 1, kept by paraid after the blocks\narray ([0-9a-f]{32})\ndisk ([0-9]) of ([0-9])\n"
    rb"generation ([0-9]{20})\n" + b"".join(rb"known %d ([0-9]{20})\n" % disk for disk in range(MOST_DISKS))
    + rb"sum ([0-9a-f]{16})\n")
SUMMED = 363


def read_label(text):
    """The label that a text is of, None where it is none, as where it was torn."""
    said = LABEL.fullmatch(text)
    if said is None:
        return None
    total = 0xCBF29CE484222325
    for byte in text[:SUMMED]:
        total = (total ^ byte) * 0x100000001B3 % 2**64
    disk, disks, generation, *known = map(int, said.groups()[1:-1])
    if int(said[said.lastindex], 16) != total or max(generation, *known) >= 2**64:
        return None
    return Label(said[1].decode(), disk, disks, generation, known)


def labels_of(folder):
    """What stands in the place of each image's label, None where its disk does not spin: a parked one is left alone."""
    return [folder.label(disk) if folder.power(disk) == "spinning" else None for disk in range(MOST_DISKS)]


def named_by(labels):
    """A label of the array that the images are of: of the first one, where all in its slots are of it, or
    else of the one that most are of. One in a slot past those of its own array names none."""
    def within(label):
        return [other for slot, other in enumerate(labels) if other and slot < label.disks]

    def count(label):
        return sum(other.array == label.array for other in within(label))

    first = next((label for slot, label in enumerate(labels) if label and slot < label.disks), None)
    if first is None or all(other.array == first.array for other in within(first)):
        return first
    return max([first, *filter(None, labels)], key=count)


def misfits_of(labels):
    """The images that do not belong into their slots, by slots: (`foreign`, `moved`, `old`, `new` or `bare`, and
    why). A mount refuses each of them."""
    named, found = named_by(labels), {}
    if named is None:
        return found
    right = {slot: label for slot, label in enumerate(labels)
             if label and slot < named.disks and label.disk == slot and label.array == named.array}
    for slot, label in enumerate(labels[: named.disks]):
        known = max((other.known[slot] for other in right.values()), default=0)
        if label is BARE and known > 0:
            found[slot] = "bare", f"has no label, where the others know generation {known}"
        elif not label:
            continue
        elif label.array != named.array:
            found[slot] = "foreign", "is of another array"
        elif label.disk != slot:
            found[slot] = "moved", f"is the image of disk {label.disk}"
        elif label.generation < known:
            found[slot] = "old", (f"is an old copy: its label has generation {label.generation},"
                                  f" where the others know {known}")
    # (beside an old copy each other image is newer: the old one alone is named)
    return dict(sorted({**newer_in({slot: label for slot, label in right.items() if slot not in found}), **found}.items()))


def newer_in(labels):
    """The images of a later time than another one, by slots, in the form of `misfits_of`, by the program's rule. The
    label of such an image says that the others were told its generation, and that the other one had it, or a later
    one, by then; and the other one does not know it. A disk past the slot is told after this label is written: so it
    counts only where its label is of a later generation than this one knows."""
    found = {}
    for slot, label in labels.items():
        own = label.known[slot]
        for disk, other in labels.items():
            heard = label.known[disk]
            if own == label.generation and other.known[slot] < own <= heard and (disk < slot or heard < other.generation):
                found[slot] = "new", (f"is newer than the others: its label has generation {label.generation}, "
                                      f"where they know {other.known[slot]}")
                break
    return found


def stayed_behind(labels):
    """The images beside which most of the others are old copies: where those came from one backup, it is these that were
    not brought back."""
    found = misfits_of(labels)
    old = {slot: labels[slot] for slot, (kind, _) in found.items() if kind == "old"}
    knowing = [disk for disk, label in enumerate(labels) if label and disk not in found
               and any(label.array == it.array and label.known[slot] > it.generation for slot, it in old.items())]
    return knowing if len(knowing) < len(old) else []


def dirty_bytes(folder, meta, batch, power):
    """The dirty map, a byte for each row, of the lower log disk that is not out, with the batch laid over."""
    map_disk = 1 if meta.out == 0 or power(0) in AWAY else 0
    data = bytearray(folder.read(map_disk, LOG, meta.geometry.map_blocks))
    for disk, place, block in batch:
        if disk == map_disk and place < LOG + meta.geometry.map_blocks:
            data[BLOCK * (place - LOG) : BLOCK * (place - LOG + 1)] = block
    return bytes(data[: meta.geometry.rows])


OUTPUT_FAILED = 4
UNREADABLE = 2


def speak_utf8():
    """What is printed from here on is UTF-8, in whatever locale."""
    if isinstance(sys.stdout, io.TextIOWrapper):
        sys.stdout.reconfigure(encoding="utf-8")


class Errors(io.TextIOBase):
    """Standard error. Where it is closed or fails nothing is said there, and the status is as it were."""

    def __init__(self, stream):
        super().__init__()
        self.stream = stream

    def write(self, text):
        with contextlib.suppress(OSError, ValueError):
            if self.stream is not None:
                self.stream.write(text)
                self.stream.flush()
        return len(text)


def status_of(main, name):
    """The status of a tool: what `main` gives for its words, 4 where the output fails or is closed, or 2 where
    a file cannot be read."""
    if sys.stdout is None:
        # (a print to no stream would say nothing of it; one to a stream that is only read fails)
        sys.stdout = open(os.devnull, encoding="utf-8")
    # (a file's name may have any bytes, and a key any letters)
    sys.stdout.reconfigure(errors="backslashreplace")
    sys.stderr = Errors(sys.stderr)
    try:
        status = main(sys.argv[1:])
        if sys.stdout.writable():
            sys.stdout.flush()
        return status
    except BrokenPipeError:
        pass
    except OSError as fault:
        if fault.filename is not None:
            print(f"{name}: {fault.filename}: {fault.strerror}", file=sys.stderr)
            return UNREADABLE
        print(f"{name}: the output: {fault.strerror or 'it is closed'}", file=sys.stderr)
    # What is left is not written once more as Python ends.
    sink = os.open(os.devnull, os.O_WRONLY)
    os.dup2(sink, 1)
    return OUTPUT_FAILED
