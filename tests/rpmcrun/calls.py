"""How often a running program reads and writes: counted by the kernel, and traced by strace."""

import pathlib
import re
import shutil
import subprocess
import tempfile

from shared.tally import Failed

PATIENCE = 300  # seconds for a traced run

# The calls with which a program can read its input and write its output.
READS = "read,readv,pread64,recvfrom,recvmsg"
WRITES = "write,writev,pwrite64,sendto,sendmsg"


def counted(process):
    """The calls of a process that read and that wrote, since it began."""
    numbers = dict(re.findall(r"(\w+): (\d+)", pathlib.Path(f"/proc/{process.pid}/io").read_text()))
    return int(numbers["syscr"]), int(numbers["syscw"])


def why_not_counted():
    """Why the kernel does not tell the calls of a process here, or nothing."""
    try:
        pathlib.Path("/proc/self/io").read_text()
    except OSError as wrong:
        return f"the kernel does not count: {wrong}"
    return ""


def why_not_traced():
    """Why no program can be traced here, or nothing."""
    if shutil.which("strace") is None:
        return "there is no strace (Debian package strace)"
    tried = subprocess.run(["strace", "-o", "/dev/null", "true"], capture_output=True, text=True)
    return "" if tried.returncode == 0 else f"strace does not work here: {tried.stderr.strip()}"


def traced(command, text):
    """The program's output, and two lists: how many bytes each call asked for that read standard input,
    and how many each wrote to standard output. Of more threads than one the first is traced: the
    emulator, where there is one, does all of the program's calls in it."""
    with tempfile.NamedTemporaryFile() as log:
        trace = ["strace", "-o", log.name, "-s", "0", "-e", f"trace={READS},{WRITES}"]
        done = subprocess.run(trace + command, input=text, stdout=subprocess.PIPE, timeout=PATIENCE)
        lines = pathlib.Path(log.name).read_text(errors="replace").splitlines()
    if done.returncode != 0:
        raise Failed(f"it ended with status {done.returncode}")
    asked, wrote = [], []
    for line in lines:
        call = re.match(r"(\w+)\((\d+), .*?(\d+)\) += (\d+)", line)
        if call and call[2] == "0" and call[1] in READS.split(","):
            asked.append(int(call[3]))
        if call and call[2] == "1" and call[1] in WRITES.split(","):
            wrote.append(int(call[4]))
    return done.stdout, asked, wrote
