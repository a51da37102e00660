"""Serves an array as a block device of the network, with gears: a plugin of nbdkit.

    nbdkit --filter=blocksize python tools/nbd.py array=FOLDER [tick=SECONDS] [control=SOCKET]
        [program=PROGRAM] [limit=BYTES]

Each request becomes lines of one `paraid run`, in the order in which they come, and a clock sends the
ticks by which the array shifts. So a write is answered when the run has accepted it, and a flush when
the disks hold all writes that were answered before it. docs/paraid-nbd.8 tells the rest."""
import binascii
import collections
import contextlib
import errno
import os
import re
import resource
import select
import shutil
import signal
import socket
import stat
import subprocess
import sys
import syslog
import threading
import time
import nbdkit

HERE = os.path.dirname(os.path.realpath(__file__))
sys.dont_write_bytecode = True
sys.path.insert(0, HERE)
import losses
import places

API_VERSION = 2
sys.tracebacklimit = 0  # nbdkit tells an error by its line alone
SIZE = 512
PAIRS, LINE = 8, 1100  # of one write: its blocks at most, and the bytes of its line
KEPT = 3600  # seconds that ticks wait for a commit, which keeps them
MANY = 128  # lines that are sent as one, so that no request keeps the others waiting for long
ASKED = re.compile(rb"(s|e|up|down|(fail|replace) (0|[1-9][0-9]{0,9}))\n")
HALTS = (b"two ", b"worn ")
SIGNALS = (signal.SIGTERM, signal.SIGINT, signal.SIGQUIT, signal.SIGHUP)  # by which nbdkit ends
ASIDE = b"paraid: "  # begins a line of standard error, and no answer
# An answer that tells of a disk that is gone, and one by which the next loss is another one.
GONE = re.compile(rb"(?:state .* out|nofresh|two [0-9]) ([0-9])(?: gone .*)?")
BACK = re.compile(rb"replaced |nofresh |state .* out (?:none|[0-9] rebuilt) ")
LEFT = "its client has gone"
PATIENCE = 1  # seconds for a look at a lost disk that is under way at the end


def log(text):
    """Says this where nbdkit says its errors: in the background that is the log of the system."""
    try:
        if os.fstat(2).st_rdev != os.stat(os.devnull).st_rdev:
            os.write(2, f"paraid: {text}\n".encode())
            return
    except OSError:
        pass
    syslog.syslog(syslog.LOG_NOTICE, f"paraid: {text}")


def text(line):
    """What the program wrote as text, whatever its bytes are."""
    return line.decode(errors="replace")


class Refused(Exception):
    """What the program answered in place of what was asked for, or why it does not answer."""


def has_gone(client):
    """Whether the other end of a socket is closed. One that only sends no more still waits for its answer."""
    either = select.poll()
    either.register(client, 0)
    return bool(either.poll(0))


class Batch:
    """The lines of one request, and what becomes of them. One of the control socket has the socket of its client."""

    def __init__(self, lines, client=None):
        self.lines, self.client, self.answers, self.fault = lines, client, None, None
        self.wake = threading.Lock()
        self.wake.acquire()


def mask_of(folder):
    """The mask by which new files of an array give others no right that its images lack: that of nbdkit would let all
    read them. Disks 0 to 2 tell, as they are never parked: a look at another one may wake its drive."""
    mask = 0o022
    for disk in range(3):
        with contextlib.suppress(OSError):
            mask |= 0o077 & ~os.stat(os.path.join(folder, f"disk-{disk}.img")).st_mode
    return mask


class Run:
    """One `paraid run`, for one thread at a time."""

    def __init__(self, program, folder):
        # Its input is a socket: the process that waits for the command of nbdkit's --run has a copy of it, so
        # to close ours alone would not end it.
        self.input, theirs = socket.socketpair()
        with theirs:
            old = os.umask(mask_of(folder))
            try:
                # In a session of its own: an interrupt from the keyboard is for nbdkit, which then ends the input.
                self.process = subprocess.Popen([program, "run"], cwd=folder, stdin=theirs, bufsize=0,
                                                stdout=subprocess.PIPE, stderr=subprocess.STDOUT,
                                                start_new_session=True)
            finally:
                os.umask(old)
        self.input.setblocking(False)
        self.output = self.process.stdout.fileno()
        self.both = select.poll()
        self.both.register(self.input, select.POLLOUT)
        self.both.register(self.output, select.POLLIN)
        self.sent, self.ended, self.last, self.aside, self.rest = 0, None, b"", b"it said nothing", b""
        self.mounted = self.first_line()
        self.last, self.aside, self.failed = b"", b"it told no cause", False

    def first_line(self):
        """Passes over what comes before the line of the mount."""
        while True:
            lines = self.take_lines()
            if not lines:
                raise RuntimeError(f"paraid serves no array: {self.ended}")
            for line in lines:
                if line.startswith(b"mounted "):
                    return text(line)
            self.last = lines[-1]

    def take_lines(self):
        """Waits for answers, and gives none at the end of the program. What it says aside goes to the log: a
        launcher tells of a build, and a run in which a disk failed tells why, after its last line."""
        while True:
            piece = os.read(self.output, 1 << 16)
            if not piece:
                status = self.process.wait()
                # (in the background nbdkit is not its parent, and the status is not to be had)
                how = f" by signal {-status}" if status < 0 else f" with {status}" if status else ""
                self.ended = f"the program ended{how}: {text(self.last or self.aside)}"
                return []
            *lines, self.rest = (self.rest + piece).split(b"\n")
            answers = [line for line in lines if not line.startswith(ASIDE)]
            for line in lines:
                if line.startswith(ASIDE):
                    self.aside = line[len(ASIDE) :]
                    log(text(self.aside))
            if answers:
                return answers

    def give(self, left):
        """Gives the program what it takes of this now; the rest is answered."""
        try:
            return left[self.input.send(left) :]
        except BlockingIOError:
            return left
        except OSError:
            return left[:0]  # it has ended, which its output tells

    def ask(self, lines):
        """Sends these lines and gives their answers, which are taken as they come: so neither pipe stays full
        while the other is waited for."""
        if self.ended:
            raise Refused(self.ended)
        asked = b"\n".join(lines) + b"\n"
        self.sent += len(asked)
        left, answers = self.give(memoryview(asked)), []
        while len(answers) < len(lines):
            if left:
                ready = dict(self.both.poll())
                if self.input.fileno() in ready:
                    left = self.give(left)
                if self.output not in ready:
                    continue
            said = self.take_lines()
            if not said:
                raise Refused(self.ended)
            answers += said
        if left or len(answers) > len(lines):
            self.ended = f"the program said what it was not asked for: {text(answers[-1])}"
            raise Refused(self.ended)
        return answers

    def close(self):
        """Ends the input, so the run flushes, and waits for its end. Tells the last line, or why there is none; the
        run has failed if it ended before, or without a line."""
        why, said = self.ended, []
        with contextlib.suppress(OSError):  # it may have been closed before
            self.input.shutdown(socket.SHUT_WR)
        while lines := self.take_lines():
            said = lines
        self.ended, self.failed = why or self.ended, bool(why) or not said
        self.input.close()
        return text(said[-1]) if said else self.ended


class Looks:
    """Says what is to be seen of a disk once it is lost: the program tells why only at its end. Each look has
    a thread of its own, as a drive that fails may keep its reader waiting."""

    def __init__(self, folder):
        self.folder, self.known, self.lock, self.threads, self.is_over = folder, set(), threading.Lock(), [], False

    def hear(self, said):
        """Takes an answer, which may tell of a loss. One that was asked for is no question."""
        gone = GONE.fullmatch(said)
        with self.lock:
            if BACK.match(said):
                self.known.clear()
            if said.startswith(b"failed "):
                self.known.add(said[len(b"failed ") :])
            if gone and gone[1] not in self.known:
                self.known.add(gone[1])
                self.threads.append(threading.Thread(target=self.look, args=(int(gone[1]),), daemon=True))
                self.threads[-1].start()

    def look(self, disk):
        """Logs what can be seen of the files of a disk."""
        seen = losses.seen(self.folder, disk)
        if not self.is_over:
            log(f"the files of disk {disk}: {seen}")

    def close(self):
        """Waits a moment for the looks that are under way, and has the rest say nothing."""
        for thread in self.threads:
            thread.join(PATIENCE)
        self.is_over = True


class Array:
    """The array as a list of blocks for many threads, over one run after the other.

    A thread that finds nobody at work takes what all threads ask for by then, as one: so requests that
    come at once cost one turn of both pipes, and their flushes one commit. Then it passes the work on to
    the first one who waits."""

    def __init__(self, program, folder, limit):
        self.program, self.folder, self.limit = program, folder, limit
        self.queue, self.work = collections.deque(), threading.Lock()
        # the ticks since the last flush of a write, whether one was written since, and when they were kept
        self.ticks, self.has_written, self.kept, self.is_read_only = 0, False, time.monotonic(), False
        self.looks = Looks(folder)
        self.run = Run(program, folder)
        self.blocks = self.count_blocks()

    def count_blocks(self):
        """No line tells the number of blocks, but each read past them is refused."""
        low, high = 0, 2**32 - 1
        while low < high:
            half = (low + high) // 2
            said = self.run.ask([b"r %d" % half])[0]
            if said == b"noblock %d" % half:
                high = half
            elif said.startswith(b"%d=" % half):
                low = half + 1
            else:
                raise RuntimeError(f"paraid answers no read: {text(said)}")
        return low

    def renew(self):
        """Ends the run, which flushes, and begins the next: one takes 2^40 bytes at most."""
        if self.run.ended:
            return
        said = self.run.close()
        try:
            if not said.startswith("end "):
                raise RuntimeError(said)
            run = Run(self.program, self.folder)
        except (OSError, RuntimeError) as fault:
            self.run.ended = f"the next run did not begin: {fault}"
            log(self.run.ended)
            return
        self.run = run
        log(f"{run.mounted} (a new run, after {self.limit} bytes)")

    def keep_ticks(self):
        """Has a commit keep the ticks: the end of a run forgets those that came after the last one, and the ration of
        spin-ups grows by those that are kept. Block 0 is written as it is. Only who has the work may call this, so no
        request comes between. What goes wrong here is for the next request.

        It is not done at the end, which may come since drives went away together: a request would lose them, and
        without one they come back whole."""
        self.kept = time.monotonic()
        if self.is_read_only:
            return
        seen = {disk: losses.seen(self.folder, disk) for disk in range(3)}
        bad = [f"disk {disk}: {said}" for disk, said in seen.items() if said != losses.SOUND]
        if len(bad) > 1:
            log(f"ticks are not kept: {'; '.join(bad)}")
            return
        self.ticks, self.has_written = 0, False
        try:
            said = self.run.ask([b"r 0"])[0]
            if said.startswith(b"0="):
                said = self.run.ask([b"w 0 " + said[2:], b"f"])[-1]
        except Exception as fault:
            # (an answer may still come, which would be taken for that of the next request)
            self.run.ended = self.run.ended or str(fault) or repr(fault)
            said = self.run.ended.encode()
        if not said.startswith((b"flushed ", *HALTS)):
            log(f"ticks are not kept: {text(said)}")

    def count_ticks(self, batch):
        """Counts a tick, and begins anew where a flush has kept all of them."""
        self.ticks += batch.lines == [b"t"]
        self.has_written |= batch.answers[0].startswith(b"wrote ")
        if self.has_written and batch.answers[-1].startswith(b"flushed "):
            self.ticks, self.has_written, self.kept = 0, False, time.monotonic()

    def turn(self):
        """Asks for what was queued first, up to some lines, and tells each thread its answers."""
        batches = [self.queue.popleft()]
        count = len(batches[0].lines)
        while self.queue and count + len(self.queue[0].lines) <= MANY:
            batches.append(self.queue.popleft())
            count += len(batches[-1].lines)
        asked = []
        for batch in batches:
            # (one that has waited for long, as for a drive that does not answer, may be wanted no more)
            if batch.client is not None and has_gone(batch.client):
                batch.fault = LEFT
            else:
                asked.append(batch)
        if asked:
            self.answer(asked)
        return batches

    def answer(self, batches):
        """Asks for these together."""
        try:
            if self.run.sent >= self.limit:
                self.renew()
            if self.ticks and time.monotonic() - self.kept >= KEPT:
                self.keep_ticks()
            answers = self.run.ask([line for batch in batches for line in batch.lines])
            at = 0
            for batch in batches:
                batch.answers = answers[at : at + len(batch.lines)]
                at += len(batch.lines)
                self.count_ticks(batch)
        except Exception as fault:  # those who wait are told of any
            self.run.ended = self.run.ended or str(fault) or repr(fault)
            for batch in batches:
                batch.fault = self.run.ended

    def ask_some(self, lines, client=None):
        """Asks for at most MANY lines, which no other line of the program comes between."""
        mine = Batch(lines, client)
        self.queue.append(mine)
        is_mine = self.work.acquire(blocking=False)
        if not is_mine:
            mine.wake.acquire()  # until it is answered, or the work is passed on to this thread
        while mine.answers is None and mine.fault is None:
            for batch in self.turn():
                if batch is not mine:
                    batch.wake.release()
            is_mine = True
        if is_mine:
            self.pass_on()
        if mine.fault:
            raise Refused(mine.fault)
        return mine.answers

    def pass_on(self):
        """Passes the work on to the thread that waits first, or leaves it where none does."""
        while True:
            if self.queue:
                self.queue[0].wake.release()
                return
            self.work.release()
            # one who came in between has found the work taken, and waits
            if not self.queue or not self.work.acquire(blocking=False):
                return

    def ask(self, lines):
        """Asks for all these lines and gives their answers."""
        return [said for at in range(0, len(lines), MANY) for said in self.ask_some(lines[at : at + MANY])]

    def ask_one(self, line, client=None):
        """Asks for a line that is no request of a client: what it is answered may tell of a loss. One of the control
        socket is not asked for once its client has gone."""
        said = self.ask_some([line], client)[0]
        self.looks.hear(said)
        return said

    def read(self, first, into):
        """Fills these bytes with the blocks from `first` on."""
        count = len(into) // SIZE
        for n, said in enumerate(self.ask([b"r %d" % (first + n) for n in range(count)])):
            number, equals, digits = said.partition(b"=")
            if not equals or number != b"%d" % (first + n):
                self.refuse(said)
            some = binascii.unhexlify(digits)
            if len(some) < SIZE:  # the shortest list of bytes that the block repeats
                some = (some * (SIZE // len(some) + 1))[:SIZE]
            into[n * SIZE : (n + 1) * SIZE] = some

    def write(self, lines, fua):
        """Asks for writes, and with `fua` for a flush behind them: it returns once all are answered."""
        answers = self.ask(lines + [b"f"] * fua)
        for said in answers[: len(lines)]:
            if not said.startswith(b"wrote "):
                self.refuse(said)
        if fua and not answers[-1].startswith(b"flushed "):
            self.refuse(answers[-1])

    def flush(self):
        """Returns once the disks hold what was answered before."""
        self.write([], True)

    def refuse(self, said):
        """Two disks are lost, or this is no `paraid run`, and then no later answer is to be trusted."""
        self.looks.hear(said)
        if not said.startswith(HALTS):
            self.run.ended = f"the program answered {text(said)}"
        raise Refused(text(said))

    def close(self):
        """Ends the run once nobody asks for anything, and gives its last line."""
        with self.work:
            return self.run.close()


def write_lines(first, pieces):
    """Gives the lines that write these digits to the blocks from `first` on, up to eight a line."""
    lines, line, pairs = [], b"w", 0
    for number, digits in enumerate(pieces, first):
        pair = b" %d %b" % (number, digits)
        if pairs == PAIRS or (pairs and len(line) + len(pair) > LINE):
            lines.append(line)
            line, pairs = b"w", 0
        line, pairs = line + pair, pairs + 1
    return lines + [line] * (pairs > 0)


def digits_of(block):
    """Gives the digits of a block; one that repeats its first byte, as zeros do, has two."""
    return binascii.hexlify(block[:1] if block == block[:1] * SIZE else block)


class Clock:
    """Sends the ticks, and says what the array does of itself: shifts, lost disks and rebuilds."""

    def __init__(self, array, tick):
        self.array, self.tick, self.stop, self.last = array, tick, threading.Event(), None
        self.thread = threading.Thread(target=self.run, daemon=True)
        self.thread.start()

    def run(self):
        """Sends ticks until it is stopped, or until the array answers one no more."""
        due = time.monotonic() + self.tick
        while not self.stop.wait(max(0, due - time.monotonic())):
            try:
                said = text(self.array.ask_one(b"t"))
                if not said.startswith("tick ") or len(said.split()) < 5:
                    self.array.refuse(said.encode())
                self.tell(said.split()[4:], said)
            except Refused as fault:
                log(f"each request is answered by an error from now on: {fault}")
                return
            # A tick that took longer than its time is followed by the next in its time: no others are
            # made up for, as they would be ticks without load.
            due += self.tick * (max(0, time.monotonic() - due) // self.tick + 1)

    def tell(self, event, said):
        """Logs what a tick did, if it is a shift, a loss or a rebuild, or hinders one; after a loss also the state."""
        lasts = event[0] in ("waiting", "ration")  # so it is told once
        if event[0] in ("begun", "flipped", "rebuilt", "gone", "lost") or (lasts and event != self.last):
            log(said)
            if event[0] in ("waiting", "lost", "gone"):
                log(text(self.array.ask_one(b"s")))
        self.last = event

    def close(self):
        """Lets the tick that is under way end, and sends no other."""
        self.stop.set()
        self.thread.join()


class Control:
    """A socket on which an administrator asks for what no request of a client can: the state and the
    energy, shifts, and disks that are taken out and replaced. No other line is passed on."""

    def __init__(self, path):
        self.path = path
        self.socket = socket.socket(socket.AF_UNIX, socket.SOCK_STREAM)
        old = os.umask(0o177)  # the user who started nbdkit, and nobody else
        try:
            self.take_away()
            self.socket.bind(path)
        except OSError as fault:  # (that of a path that is too long has its text alone)
            raise RuntimeError(f"control={path} cannot be made: {fault.strerror or fault}") from None
        finally:
            os.umask(old)
        self.socket.listen()

    def take_away(self):
        """Takes away a socket that a kill has left, and nothing else."""
        with socket.socket(socket.AF_UNIX, socket.SOCK_STREAM) as other:
            try:
                other.connect(self.path)
            except FileNotFoundError:
                return
            except ConnectionRefusedError:
                if stat.S_ISSOCK(os.stat(self.path).st_mode):
                    os.unlink(self.path)
                    return
        raise RuntimeError(f"control={self.path} is there, and is no socket that was left behind")

    def start(self, array):
        """Lets clients ask this array from now on."""
        self.array = array
        threading.Thread(target=self.accept, daemon=True).start()

    def accept(self):
        """Takes one client after the other, each in a thread of its own."""
        while True:
            try:
                client, _ = self.socket.accept()
                threading.Thread(target=self.serve, args=(client,), daemon=True).start()
            except (OSError, RuntimeError):  # too many files or threads, until some clients have gone
                time.sleep(1)

    def serve(self, client):
        """Answers the lines of one client until it goes, is silent for a minute, or sends no whole line."""
        client.settimeout(60)
        try:
            with client, client.makefile("rwb", buffering=0) as stream:
                while line := stream.readline(64):
                    stream.write(self.answer(line, client) + b"\n")
                    if not line.endswith(b"\n"):
                        return  # too long, or a part of what was to be asked
        except OSError:
            pass

    def answer(self, line, client):
        """What the array says to a line, or why it says nothing; `bad` where it is not asked."""
        if not ASKED.fullmatch(line):
            return b"bad"
        line = line[:-1]
        try:
            said = self.array.ask_one(line, client)
        except Refused as fault:
            if str(fault) == LEFT and line not in (b"s", b"e"):
                log(f"not asked {text(line)}: {fault}")
            return f"ended: {fault}".encode()
        if line not in (b"s", b"e"):
            log(f"asked {text(line)}: {text(said)}")
        return said

    def close(self):
        """Takes no more clients, and leaves no socket behind."""
        self.socket.close()
        try:
            os.unlink(self.path)
        except OSError:
            pass


def sockets():
    """Gives the sockets of this process: the name that the system has for each, and a copy that is to be closed."""
    try:
        numbers = os.listdir("/proc/self/fd")
    except OSError:
        numbers = []
    for number in numbers:
        with contextlib.suppress(OSError):  # it was closed meanwhile
            name = os.readlink(f"/proc/self/fd/{number}")
            if name.startswith("socket:"):
                yield name, socket.socket(fileno=os.dup(int(number)))


def address(of):
    """What a socket that was accepted shares with the one that listens: the path or the port."""
    at = of.getsockname()
    return of.family, at[1] if isinstance(at, tuple) else at


class Ending:
    """Ends nbdkit at a signal, and once no run serves. By itself it waits for each client to go, also for one that
    rests. So it gets no more of what they send: each has its request under way answered, and then its end."""

    def __init__(self, array):
        self.array, self.over, self.before, self.addresses = array, threading.Event(), set(), set()
        for name, it in sockets():
            with it:
                self.before.add(name)
                if it.getsockopt(socket.SOL_SOCKET, socket.SO_ACCEPTCONN):
                    self.addresses.add(address(it))
        self.addresses.discard((socket.AF_UNIX, given["control"]))
        self.told, self.teller = socket.socketpair()
        threading.Thread(target=self.run, daemon=True).start()
        if self.addresses:
            # The main thread runs no Python until the clients have gone, but a signal is written there at once.
            self.teller.setblocking(False)
            signal.set_wakeup_fd(self.teller.fileno(), warn_on_full_buffer=False)
            for number in SIGNALS:
                signal.signal(number, lambda *_: None)
                signal.siginterrupt(number, False)

    def run(self):
        """Once a signal comes or no run serves: closes the connections, each behind the answer that it waits for."""
        self.wait()
        nbdkit.shutdown()
        if clock is not None:
            clock.stop.set()  # one that is fast leaves no time in which nothing is under way
        with contextlib.suppress(OSError, ValueError):  # the clients may have taken all files that it may open
            most = resource.getrlimit(resource.RLIMIT_NOFILE)[1]
            resource.setrlimit(resource.RLIMIT_NOFILE, (most, most))
        how, quiet = socket.SHUT_RD, 0
        while not self.over.wait(0.1 if quiet else 0):
            for name, it in sockets():
                with it, contextlib.suppress(OSError):
                    if name not in self.before and address(it) in self.addresses:
                        it.shutdown(how)
            quiet = 1 if self.array.work.locked() else quiet + 1
            if quiet > 10:  # for a second nothing was under way: who is left does not take what was answered
                how = socket.SHUT_RDWR

    def wait(self):
        """Waits for a signal, or until no run serves."""
        while True:
            run, either = self.array.run, select.poll()
            either.register(self.told, select.POLLIN)
            either.register(run.output, 0)  # so its end alone is told
            ready = dict(either.poll(1000))
            if self.told.fileno() in ready:
                return
            if ready or run.ended:
                try:
                    self.array.ask_one(b"s")  # the next run may have begun
                except Refused:
                    if is_captive():
                        self.told.recv(1)
                    return


given = {"array": None, "program": None, "tick": "1", "control": None, "limit": str(2**39)}
array = clock = control = ending = rights = mounter = None


def config(key, value):
    """nbdkit gives a parameter: it is kept, or refused where it has no such name."""
    if key not in given:
        raise RuntimeError(f"unknown parameter {key}: array, program, tick, control and limit are known")
    if not value:  # (as a path it would be the current folder)
        raise RuntimeError(f"{key}= has no value")
    # nbdkit goes to the root folder before it serves
    if key in ("array", "control") or (key == "program" and "/" in value):
        value = os.path.abspath(value)
    given[key] = value


def config_complete():
    """All parameters are there: refuses what cannot be served by them."""
    if given["array"] is None or not os.path.isdir(given["array"]):
        raise RuntimeError(f"array=FOLDER names no folder: {given['array']}")
    try:
        given["tick"], given["limit"] = float(given["tick"]), int(given["limit"])
    except ValueError:
        raise RuntimeError("tick=SECONDS and limit=BYTES are numbers") from None
    if not 0 <= given["tick"] <= 86400 or not 1 <= given["limit"] <= 2**39:
        raise RuntimeError("tick is 0 (no clock) to 86400, limit 1 to 2^39")
    program = given["program"] or places.program()
    if shutil.which(program) is None:
        raise RuntimeError(f"there is no program {program}")
    given["program"] = os.path.abspath(shutil.which(program))


def thread_model():
    """Requests of several connections come at once, those of one in turn. More is not worth it: with threads for
    one connection nbdkit (1.32) may end by an assertion when a client goes before its requests are answered."""
    return nbdkit.THREAD_MODEL_SERIALIZE_REQUESTS


def get_ready():
    """Mounts the array while nbdkit can still tell a refusal to who started it."""
    global array, control, rights, mounter
    rights, mounter = (os.geteuid(), os.getegid()), os.getpid()
    array = Array(given["program"], given["array"], given["limit"])
    if given["control"] is not None:
        control = Control(given["control"])
    log(f"{array.run.mounted}, {array.blocks} blocks of {SIZE} bytes")


def after_fork():
    """nbdkit has gone to the background, where threads may begin: the clock, the control socket, the end."""
    global clock, ending
    if rights != (os.geteuid(), os.getegid()):
        if control is not None:
            control.close()
        raise RuntimeError("not with the options -u and -g of nbdkit: start it as the owner of the images")
    if given["tick"]:
        clock = Clock(array, given["tick"])
    if control is not None:
        control.start(array)
    ending = Ending(array)


def is_captive():
    """Whether nbdkit serves the command of its --run. It goes on without a run then, since that command may still
    ask, and its status is not asked for."""
    return os.getppid() == mounter


def cleanup():
    """The clients have gone: ends the run, which flushes."""
    if ending is not None:
        ending.over.set()
    if control is not None:
        control.close()
    if clock is not None:
        clock.close()
    if array is not None:
        array.looks.close()
        log(array.close())
        if array.run.failed and not is_captive():
            os._exit(1)  # the status of nbdkit would be 0
    for number in SIGNALS:  # from here on a second one would end it by force
        signal.signal(number, signal.SIG_IGN)


def preconnect(readonly):
    """Turns a client away before all files that this process may open are in use. nbdkit would then try to take the
    next one again and again, and log each time that it cannot."""
    with contextlib.suppress(FileNotFoundError):  # without /proc nothing tells
        if len(os.listdir("/proc/self/fd")) > resource.getrlimit(resource.RLIMIT_NOFILE)[0] // 2:
            raise RuntimeError("too many clients: half of the files that nbdkit may open are in use")


def open(readonly):
    """A client connects: all have the same array, so nothing is kept of it but whether any may write."""
    array.is_read_only = readonly
    return True


def get_size(h):
    """The bytes of the export."""
    return array.blocks * SIZE


def block_size(h):
    """The least, the best and the most bytes of a request. The filter cuts what is longer, so few lines are held."""
    return (SIZE, 4096, 1 << 20)


def can_multi_conn(h):
    """All clients share one run, so a flush of one covers what was answered to any."""
    return True


def can_flush(h):
    """Tells clients that they may ask for what they wrote to be kept."""
    return True


def can_fua(h):
    """Tells clients that a write may ask for its own flush, which this plugin makes."""
    return nbdkit.FUA_NATIVE


def can_fast_zero(h):
    """Zeros take less than the same write. Without this, nbdkit (1.32) ends by an assertion if a client asks for that."""
    return True


def can_trim(h):
    """There is nothing that a trimmed block would save."""
    return False


def serves(what):
    """Makes the answers of the program other than the asked for one an error of input and output."""

    def serve(*words):
        try:
            return what(*words)
        except Refused as fault:
            nbdkit.set_error(errno.EIO)
            raise OSError(errno.EIO, f"paraid: {fault}") from None

    return serve


def blocks_of(count, offset):
    """The number of the first block and how many there are; a part of a block is refused."""
    if count % SIZE or offset % SIZE:
        nbdkit.set_error(errno.EINVAL)
        raise OSError(errno.EINVAL, "a part of a block: start nbdkit with --filter=blocksize")
    return offset // SIZE, count // SIZE


@serves
def pread(h, buf, offset, flags):
    """A client reads."""
    first, _ = blocks_of(len(buf), offset)
    array.read(first, buf)


@serves
def pwrite(h, buf, offset, flags):
    """A client writes; with the flag for it the answer waits for a flush."""
    first, count = blocks_of(len(buf), offset)
    data = bytes(buf)
    pieces = [digits_of(data[n * SIZE : (n + 1) * SIZE]) for n in range(count)]
    array.write(write_lines(first, pieces), bool(flags & nbdkit.FLAG_FUA))


@serves
def zero(h, count, offset, flags):
    """A client writes zeros, without sending them."""
    first, count = blocks_of(count, offset)
    array.write(write_lines(first, [b"00"] * count), bool(flags & nbdkit.FLAG_FUA))


@serves
def flush(h, flags):
    """A client asks for what it wrote to be kept."""
    array.flush()
