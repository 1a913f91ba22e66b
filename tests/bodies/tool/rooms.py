"""Copies of a repository, in which crates are checked with edits."""
import contextlib
import fcntl
import hashlib
import os
import shutil
import signal
import subprocess
import tempfile
import threading

from functions import answers_of
from verdicts import Said

PARTS = ("src", "specs", "proofs")


# The process groups of the checks that are running, and whether no other is to start.
RUNNING, STOPPED = set(), threading.Event()


class NotProved(Exception):
    """Says that a crate does not check as it stands."""


class Stopped(Exception):
    """Says that the run was broken off."""


def stop():
    """Ends the checks that are running."""
    STOPPED.set()
    for it in list(RUNNING):
        with contextlib.suppress(ProcessLookupError):
            os.killpg(it, signal.SIGTERM)


@contextlib.contextmanager
def folder_for(repository):
    """A folder outside the repository for its copies. It is the same in each run, and of one run at a time."""
    sum = hashlib.sha256(repository.encode()).hexdigest()[:8]
    folder = os.path.join(tempfile.gettempdir(), f"wrong-bodies-{sum}")
    lock = os.open(repository, os.O_RDONLY)
    fcntl.flock(lock, fcntl.LOCK_EX)
    shutil.rmtree(folder, ignore_errors=True)
    os.mkdir(folder, 0o700)
    try:
        yield folder
    finally:
        shutil.rmtree(folder, ignore_errors=True)
        os.close(lock)


class Room:
    """A copy of a repository for the bodies of one crate. Each check with edits begins with what the check of the
    crate as it stands left. Counts the checks and the seconds of processor that they take. Where functions are named, a
    check proves these and what they call alone."""

    def __init__(self, repository, crate, folder, outputs=None):
        self.crate = crate
        self.top = os.path.join(folder, crate)
        self.folder = os.path.join(self.top, "crates", crate)
        self.kept = os.path.join(self.top, "as-it-stands")
        self.outputs = outputs
        self.checks = 0
        self.seconds = 0.0
        copy_repository(repository, self.top)
        take_made(repository, crate, "incremental", self.top)

    def check_as_it_stands(self, only=()):
        """Proves the crate with no edit, and keeps what that made."""
        said = self.check(only)
        if not said.is_proved:
            raise NotProved(f"{self.crate} is not proved as it stands: {said.complaint or said.last}")
        shutil.copytree(self.folder, self.kept, symlinks=True, copy_function=link_or_copy)
        return said

    def check_with(self, texts, without=(), only=()):
        """Checks the crate with these texts in the place of its own, and without the written answers in the folders
        named second."""
        shutil.rmtree(self.folder)
        shutil.copytree(self.kept, self.folder, symlinks=True, copy_function=link_or_copy)
        for file, text in texts.items():
            write(os.path.join(self.folder, file), text)
        for it in without:
            os.remove(answers_of(self.folder, it))
        return self.check(only)

    def check(self, only):
        """Runs `rt check`, and once more where it ends with no verdict and no complaint, for want of memory say."""
        said = self.check_once(only)
        return said if said.end or said.complaint else self.check_once(only)

    def check_once(self, only):
        words = ["rt", "check", "--jobs", "1", *(word for name in sorted(only) for word in ("--only", name))]
        with tempfile.TemporaryFile("w+", encoding="utf-8", errors="replace") as output:
            self.seconds += seconds_of(words, self.folder, output)
            output.seek(0)
            text = output.read()
        self.checks += 1
        if self.outputs:
            write(os.path.join(self.outputs, f"{self.crate}.{self.checks}.log"), text)
        return Said(text)

    def clear(self):
        """Removes what was made of the crate itself. The libraries below stay: rooms that come later take them."""
        for it in (self.folder, self.kept):
            shutil.rmtree(it, ignore_errors=True)


def seconds_of(words, folder, output):
    """Runs a command, and returns the seconds of processor that it took."""
    if STOPPED.is_set():
        raise Stopped
    ran = subprocess.Popen(
        words, cwd=folder, stdin=subprocess.DEVNULL, stdout=output, stderr=subprocess.STDOUT, start_new_session=True
    )
    RUNNING.add(ran.pid)
    _, status, used = os.wait4(ran.pid, 0)
    RUNNING.discard(ran.pid)
    ran.returncode = os.waitstatus_to_exitcode(status)
    return used.ru_utime + used.ru_stime


def copy_repository(repository, to):
    """Copies what checks read of a repository, and the libraries that checks or `rt ci` left there: `rt check` compares
    a library with the crate's files, and proves the crate again only where they differ."""
    for name in ("crates.txt", "HANDLES"):
        if os.path.exists(os.path.join(repository, name)):
            os.makedirs(to, exist_ok=True)
            shutil.copy(os.path.join(repository, name), to)
    for crate in sorted(os.listdir(os.path.join(repository, "crates"))):
        for part in PARTS:
            folder = os.path.join(repository, "crates", crate, part)
            if os.path.isdir(folder):
                shutil.copytree(folder, os.path.join(to, "crates", crate, part))
        take_made(repository, crate, "rlib", to)


def take_made(repository, crate, part, to):
    """Takes a folder of what was made of a crate in the repository, where it is there: `rlib`, its library, or
    `incremental`, what a check kept of its proofs."""
    made = os.path.join(repository, "crates", crate, "out", part)
    if os.path.isdir(made):
        place = os.path.join(to, "crates", crate, "out", part)
        shutil.copytree(made, place, symlinks=True, copy_function=link_or_copy)


def link_or_copy(file, to):
    """Copies a file. What checks keep of a proof, and the files of a library, are linked where that can be done: a
    check puts a new file in the place of such a one, and never writes into it."""
    if file.endswith(".oantt") or "/out/rlib/" in file:
        with contextlib.suppress(OSError):
            return os.link(file, to)
    return shutil.copy2(file, to)


def write(file, text):
    with open(file, "w", encoding="utf-8") as it:
        it.write(text)
