"""Conditions in which a run fails: streams that take nothing, full disks, files that are replaced,
limits, few addresses."""
import os
import resource
import shutil
import signal

ADDRESSES = 6_000_000
WRITE_FAULT = (3, "oldstyle: write fault\n")


def closed_pipe():
    """The end for writing of a pipe that nobody reads."""
    near, far = os.pipe()
    os.close(near)
    return far


def full():
    """A file that takes nothing more."""
    return os.open("/dev/full", os.O_RDWR)


def fill(path):
    """Writes a file that takes all of the disk."""
    try:
        with open(path, "wb", buffering=0) as file:
            while file.write(b"a" * 4_096):
                pass
    except OSError:
        pass


def copy_over(path):
    """Puts a copy of a file in its place."""
    shutil.copy(path, path + ".new")
    os.replace(path + ".new", path)


def limited(length):
    """Limits the length of the files that this process writes; a write past it fails."""
    signal.signal(signal.SIGXFSZ, signal.SIG_IGN)
    resource.setrlimit(resource.RLIMIT_FSIZE, (length, length))


def short_of_addresses():
    """Leaves this process few addresses."""
    resource.setrlimit(resource.RLIMIT_AS, (ADDRESSES, ADDRESSES))
