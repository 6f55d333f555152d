"""What the benches measure of a run of the program: its time, and its memory. ALBUM can name another program."""
import fcntl
import os
import re
import resource
import shutil
import socket
import struct
import subprocess
import sys
import termios
import time

HERE = os.path.dirname(os.path.abspath(__file__))
ALBUM = os.environ.get("ALBUM", os.path.join(HERE, "..", "album"))


def prepare():
    """Builds the program, where it isn't."""
    subprocess.run([ALBUM, "--help"], stdout=subprocess.DEVNULL, check=True)


def seconds_of(subcommand, path):
    """The seconds that one run over the file takes."""
    with open(path, "rb") as lines:
        began = time.monotonic()
        finish(subprocess.Popen([ALBUM, subcommand], stdin=lines, stdout=subprocess.DEVNULL))
        return time.monotonic() - began


def started(subcommand):
    """The words that start the program as the script `album` does, without the shell: the small one judges."""
    name = "album_judge_alone" if subcommand == "judge" else "album"
    built = os.path.join(HERE, "..", "crates", name, "out", name)
    os.environ.setdefault("GLIBC_TUNABLES", "glibc.malloc.tcache_count=100")
    return [os.environ.get("ALBUM", built), subcommand]


def judge_peer(folder):
    """The words that start the peer of `album judge`, built in this folder, or None where it can't be built."""
    registry = "/usr/share/cargo/registry"
    wanted = ("serde-", "serde_derive-", "serde_json-")
    names = os.listdir(registry) if os.path.isdir(registry) else []
    if shutil.which("cargo") is None or not all(any(n.startswith(it) for n in names) for it in wanted):
        return None
    shutil.copytree(os.path.join(HERE, "peer"), folder)
    source = ["--config", 'source.crates-io.replace-with="debian"', "--config", 'source.debian.directory="%s"' % registry]
    subprocess.run(["cargo", "build", "--quiet", "--release", "--offline", *source], cwd=folder, check=True)
    return [os.path.join(folder, "target", "release", "peer")]


def output_of(words, path):
    """What a run over the file writes."""
    with open(path, "rb") as lines:
        return subprocess.run(words, stdin=lines, stdout=subprocess.PIPE, check=True).stdout


def processor_seconds_of(words, path):
    """The seconds of processor, its own and the kernel's for it, that a run over the file takes."""
    before = resource.getrusage(resource.RUSAGE_CHILDREN)
    with open(path, "rb") as lines:
        finish(subprocess.Popen(words, stdin=lines, stdout=subprocess.DEVNULL))
    after = resource.getrusage(resource.RUSAGE_CHILDREN)
    return after.ru_utime + after.ru_stime - before.ru_utime - before.ru_stime


def instructions_of(words, path):
    """The instructions that a run over the file takes, less those of a run over nothing; None without valgrind."""
    if shutil.which("valgrind") is None:
        return None
    counts = [counted(words, it) for it in (path, os.devnull)]
    return counts[0] - counts[1]


def counted(words, path):
    tool = ["valgrind", "--tool=callgrind", "--callgrind-out-file=/dev/null"]
    with open(path, "rb") as lines:
        run = subprocess.run(tool + words, stdin=lines, stdout=subprocess.DEVNULL, stderr=subprocess.PIPE, check=True)
    return int(re.search(rb"Collected : (\d+)", run.stderr).group(1))


def peak_of(subcommand, path):
    """The most memory (KiB) that a run over the file's bytes has held.

    The kernel's figure for a process that has ended counts this script too, of which the process
    is a copy at first. So the program is asked while it waits for more than the last byte.
    """
    with open(path, "rb") as lines:
        child = subprocess.Popen([ALBUM, subcommand], stdin=subprocess.PIPE, stdout=subprocess.DEVNULL)
        for piece in iter(lambda: lines.read(1 << 16), b""):
            child.stdin.write(piece)
        child.stdin.flush()
        while unread(child.stdin) > 0 or not is_waiting(child.pid):
            time.sleep(0.001)
        peak = held_by(child.pid, "VmHWM")
        child.stdin.close()
        finish(child)
        return peak


def held_by(process, what):
    """The memory (KiB) that a process holds (VmRSS), or has held at most (VmHWM)."""
    with open("/proc/%d/status" % process) as status:
        return next(int(row.split()[1]) for row in status if row.startswith(what + ":"))


def processor_time():
    """The ticks that the machine's host has taken from its processors, and those that have passed in all."""
    with open("/proc/stat") as stat:
        ticks = [int(word) for word in stat.readline().split()[1:9]]
    return ticks[7], sum(ticks)


def free_port():
    """A port that nobody has."""
    with socket.socket() as any_port:
        any_port.bind(("127.0.0.1", 0))
        return any_port.getsockname()[1]


def unread(pipe):
    """How many bytes of the pipe are not read yet."""
    return struct.unpack("i", fcntl.ioctl(pipe, termios.FIONREAD, b"\0" * 4))[0]


def is_waiting(process):
    """Whether the process sleeps. (Its name, which stands in brackets before its state, has no bracket.)"""
    with open("/proc/%d/stat" % process) as stat:
        return stat.read().rpartition(") ")[2].startswith("S")


def finish(child):
    if child.wait() != 0:
        sys.exit("bench: the program ended with status %d" % child.returncode)
