"""Images made of listings, and runs of the program whose processor time and memory are measured."""
import os
import re
import resource
import signal
import struct
import subprocess
from pathlib import Path
from typing import NamedTuple, Optional

TOP = Path(__file__).resolve().parents[2]
PROGRAM = TOP / "crates/replay_shell/out/replay_shell"
IMAGE_TOOLS = TOP / "crates/image_tools/out/image_tools"
PARTS = [TOP / "bench/hostile/drivers", TOP / "crates/driver_runs/data/drivers"]

MOST_SECONDS = 60
MEBIBYTE = 1 << 20


class Fault(Exception):
    """A file of a bench is wrong, or a program is not there."""


def need_program(path):
    """The path, if a program is there."""
    path = Path(path).resolve()
    if not os.access(path, os.X_OK):
        raise Fault(f"{path} is not built; torgwezh and torgwezh-image build the programs")
    return path


# ---- images


def part_text(part):
    """The listing of a part."""
    found = [folder / f"{part}.asm" for folder in PARTS if (folder / f"{part}.asm").is_file()]
    if len(found) != 1:
        raise Fault(f"the part {part} is in {len(found)} folders")
    return found[0].read_text()


def image_of(image_tools, parts, numbers=None):
    """The image of these parts, one after the other. Each word of `numbers` stands for its number in their listings."""
    listing = "".join(part_text(part) for part in parts)
    for word, number in (numbers or {}).items():
        listing = re.sub(rf"\b{word}\b", str(number), listing)
    made = subprocess.run([image_tools, "asm", "/dev/stdin"], input=listing.encode(), capture_output=True)
    if made.returncode != 0:
        raise Fault(f"{' '.join(parts)}: {made.stdout.decode()}")
    return made.stdout


def lengthened(image, code_bytes):
    """An image without relocations whose code is followed by zeros, up to so many bytes."""
    made = bytearray(image[:512])
    length = struct.unpack_from("<I", made, 0x100)[0]
    in_file = (code_bytes + 511) // 512 * 512
    struct.pack_into("<I", made, 0x58 + 56, 512 + in_file)  # SizeOfImage
    struct.pack_into("<I", made, 0x100, code_bytes)  # VirtualSize of .text
    struct.pack_into("<I", made, 0x108, in_file)  # SizeOfRawData
    return bytes(made) + image[512 : 512 + length] + bytes(in_file - length)


# ---- runs


class Reply(NamedTuple):
    """What a report says of a command: the result of its first event, if it has one, its status and its units."""

    result: Optional[str]
    status: str
    units: int


class Run(NamedTuple):
    """A run of the program: its exit status, or None if it was ended, its processor time, the most memory that it had,
    and its replies. A process begins as a copy of the one that starts it, so memory that is not above that of the bench
    itself can't be told, and is None."""

    status: Optional[int]
    seconds: float
    mebibytes: Optional[float]
    replies: list

    def ending(self):
        """How the run ended, if not as it should."""
        return {None: f"over {MOST_SECONDS} s", 0: "", 5: "out of memory"}.get(self.status, f"status {self.status}")

    def memory(self):
        return "" if self.mebibytes is None else f"{self.mebibytes:.0f} MiB"


def replies_in(report):
    """The replies in a report's lines."""
    replies, result = [], None
    for line in report:
        if line.startswith("> "):
            result = None
        elif line.startswith("= "):
            status, units = line.split()[1:]
            replies.append(Reply(result, status, int(units)))
        elif result is None and line.startswith("1 0 "):
            result = line.split()[-1]
    return replies


def own_mebibytes():
    """The memory of this process."""
    return int(Path("/proc/self/statm").read_text().split()[1]) * resource.getpagesize() / MEBIBYTE


def run_script(program, folder, script, name="script", memory=None):
    """Runs a script, whose report goes to the file NAME.report in the folder. With `memory` the program has so many
    mebibytes of address space."""
    (folder / name).write_text("".join(line + "\n" for line in script))

    def limits():
        resource.setrlimit(resource.RLIMIT_CPU, (MOST_SECONDS, MOST_SECONDS + 1))
        if memory is not None:
            resource.setrlimit(resource.RLIMIT_AS, (memory * MEBIBYTE, memory * MEBIBYTE))

    own = own_mebibytes()
    report = folder / f"{name}.report"
    with open(report, "wb") as out:
        started = subprocess.Popen([program, "run", name], cwd=folder, stdout=out, preexec_fn=limits)
        _, ended, used = os.wait4(started.pid, 0)
        started.returncode = os.waitstatus_to_exitcode(ended)
    status = started.returncode
    if status < 0 and -status not in (signal.SIGXCPU, signal.SIGKILL):
        raise Fault(f"{program} was ended by signal {-status}")
    with open(report, encoding="ascii") as lines:
        replies = replies_in(lines)
    mebibytes = used.ru_maxrss / 1024
    return Run(
        status=status if status >= 0 else None,
        seconds=used.ru_utime + used.ru_stime,
        mebibytes=mebibytes if mebibytes > own + 1 else None,
        replies=replies,
    )
