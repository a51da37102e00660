"""What can be seen of a disk that was lost: its link, its image and its sidecar, which are only read."""
import contextlib
import os
import stat

import images

# A sector further on may be bad, or writes may fail: that is not looked at, as it would keep a drive busy.
SOUND = ("nothing is wrong with its first block, size and label: the kernel's log (dmesg) may tell why it was lost,"
         " and the program tells its error as it ends")
# The same where the drive is left alone.
UNREAD = "nothing is wrong with its link, its size and its sidecar; its drive was not read"


def seen(path, disk, is_read=True):
    """The first thing that is wrong with the files of a disk now, by which it may have been lost. Its drive is left
    alone unless `is_read`: one that is parked would wake, and one that fails may keep its reader waiting."""
    with contextlib.closing(images.Folder(path)) as folder:
        for look in LOOKS:
            if not is_read and look in OF_DRIVE:
                continue
            try:
                text = look(folder, disk)
            except OSError as fault:
                text = f"{os.path.basename(fault.filename or folder.image(disk))} cannot be opened: {fault.strerror}"
            if text:
                return text
    return SOUND if is_read else UNREAD


def of_name(name):
    """What stands there in place of a file."""
    short = os.path.basename(name)
    try:
        return None if stat.S_ISREG(os.stat(name).st_mode) else f"{short} is no file"
    except FileNotFoundError:
        if os.path.islink(name):
            return f"{short} is a link that leads nowhere: there is no {images.shown(os.path.realpath(name))}"
        return f"{short} is missing"


def of_image(folder, disk):
    return of_name(folder.image(disk))


def of_sidecar(folder, disk):
    """Without one the disk spins, and at a loss the program itself writes `failed`."""
    name = os.path.join(folder.path, f"disk-{disk}.power")
    if not os.path.lexists(name):
        return None
    if text := of_name(name):
        return text
    is_known = images.read_file(name, images.LONGEST_WORD)[0].strip() in images.WORDS
    return None if is_known else f"{os.path.basename(name)} says neither spinning nor parked"


def of_first_block(folder, disk):
    file = folder.opened(disk)
    try:
        # (what the memory of the system has of it would tell nothing of the drive)
        os.posix_fadvise(file, 0, images.BLOCK, os.POSIX_FADV_DONTNEED)
        os.pread(file, images.BLOCK, 0)
    except OSError as fault:
        return f"the first block of disk-{disk}.img cannot be read: {fault.strerror}"
    return None


def of_size(folder, disk):
    for log in {0, 1} - {disk}:
        if folder.power(log) != "spinning":  # (one that failed may keep its reader waiting)
            continue
        with contextlib.suppress(OSError):
            meta = images.side_of(folder.read(log, 0, images.LOG)).meta
            if meta is not None and folder.size(disk) < meta.geometry.size:
                return f"disk-{disk}.img has {folder.size(disk)} blocks of {meta.geometry.size}"
    return None


def of_label(folder, disk):
    labels = images.labels_of(folder)
    labels[disk] = folder.label(disk)
    misfit = images.misfits_of(labels).get(disk)
    return misfit and f"disk-{disk}.img {misfit[1]}"


def of_writes(folder, disk):
    is_fixed = folder.is_read_only(disk, images.read_only_devices())
    return images.TAKES_NO_WRITES.format(disk) if is_fixed else None


LOOKS = (of_image, of_sidecar, of_first_block, of_size, of_label, of_writes)
OF_DRIVE = (of_first_block, of_label)
