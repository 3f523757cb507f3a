"""Runs that something is refused, and what may come of them: the right bytes, or a line that says what was refused, with what lay at the names
whole. The design is rs232_cl4 of the examples, of 37 blocks; the checksums of its runs are those of another placer's answers."""

import os
import shutil
import subprocess
import zlib

from texts import TOP, read, taken, write

SCHEDULE = "--init-t 10 --exit-t 1 --alpha-t 0.5 --moves 300 --seed 61"
CREW = "--init-t 1 --exit-t 0.9 --alpha-t 0.5 --moves 6000 --seed 62"
DESIGN = "--arch arch --net net"
JOBS = {
    "place": f"place {DESIGN} --pads pads --out out {SCHEDULE}",
    "stop": f"place {DESIGN} --out out {SCHEDULE} --stop 700 --save save",
    "resume": f"resume {DESIGN} --point begun --out out",
    "again": f"resume {DESIGN} --point begun --out out --stop 1000 --save save",
    "check": f"check {DESIGN} --place placed",
    "example": "",
    "help": "place --help",
    "wrong": "place --arch",
    # Its frozen stage is judged ahead by a crew, where three processors are at hand for workers; so is that of the large design.
    "crew": f"place {DESIGN} --out out {CREW}",
    "large": f"place {DESIGN} --out out {CREW}",
}
# The names at which a run may leave something, and what lies there before.
PLACES = ("out", "save")
OLD = b"old\n"
# The checksums of the report, and of what lies at the out name and at the save name behind the run: answers of another placer. The text of
# the help and that of the wrong words are the program's own, and the large design's answers are those of its undisturbed run.
SUMS = {
    "place": [1863117661, 3965892762, 3800583600],
    "stop": [2351122740, 3800583600, 4174857206],
    "resume": [845423251, 1006354502, 3800583600],
    "again": [2033249392, 3800583600, 487504751],
    "check": [3925732362, 3800583600, 3800583600],
    "crew": [2820033926, 1712936651, 3800583600],
    "example": [1949926327, 3800583600, 3800583600],
}
LIMIT = 60


class Came:
    """What a run came to: its status, its outputs, and what lies at the names; `parts` are the part files."""

    def __init__(self, status, report, said, folder):
        self.status, self.report, self.said = status, report, said
        self.left = {name: read(f"{folder}/{name}") for name in PLACES}
        self.parts = {name: taken(f"{folder}/{name}") for name in sorted(os.listdir(folder)) if ".vplace-part" in name}

    def __eq__(self, other):
        return vars(self) == vars(other)


class Runs:
    """Runs in a folder of its own, with the library that refuses."""

    def __init__(self, program, library, folder):
        self.program, self.library, self.folder = program, library, folder
        os.makedirs(folder)
        for name in ("arch", "net", "pads"):
            shutil.copy(f"{TOP}/examples/rs232_cl4.{name}", f"{folder}/{name}")
        # What other runs begin with.
        write(folder + "/begun", self.run("stop").left["save"])
        write(folder + "/placed", self.run("place").left["out"])

    def take_large(self, folder):
        """Takes the large design, of which a folder has the texts."""
        for name in ("arch", "net"):
            os.remove(f"{self.folder}/{name}")
            os.symlink(f"{folder}/{name}", f"{self.folder}/{name}")

    def run(self, job, *more, **refused):
        """Makes a job, with these words more, and with these variables for the library."""
        return self.run_words([*JOBS[job].split(), *more], **refused)

    def run_words(self, words, **refused):
        for name in PLACES:
            write(f"{self.folder}/{name}", OLD)
        settings = dict(os.environ, LD_PRELOAD=self.library, **{name: str(value) for name, value in refused.items()}) if refused else None
        try:
            done = subprocess.run([self.program, *words], cwd=self.folder, env=settings, stdin=subprocess.DEVNULL, capture_output=True, timeout=LIMIT)
        except subprocess.TimeoutExpired:
            return Came(None, b"", b"it did not end", self.folder)
        return Came(done.returncode, done.stdout, done.stderr, self.folder)


def undisturbed(runs):
    """What is wrong with the runs that nothing is refused."""
    for job, sums in SUMS.items():
        came = runs.run(job)
        if (came.status, came.said) != (0, b"") or came.parts:
            yield f"{job}: status {came.status}, {came.said[:80]}"
        if [zlib.crc32(text) for text in (came.report, *came.left.values())] != sums:
            yield f"{job}: another answer"


def faults_refused(came, right, status, line, report=None):
    """What is wrong with a run that is to end with this status and this line: its report is the one that is given, or else a beginning, and
    old files are whole. Where memory is short, one part file may be left, with the answer."""
    if came.status != status:
        yield f"status {came.status}, {came.said[:80]}"
    if came.said != line:
        yield f"said {came.said[:80]}"
    if came.report != (right.report[: len(came.report)] if report is None else report):
        yield f"a report of {len(came.report)} bytes, of which {len(os.path.commonprefix([came.report, right.report]))} are right"
    yield from faults_of_names(came)
    for name, text in came.parts.items():
        if status != 3 or text not in right.left.values():
            yield f"{name} is left"


def faults_of_names(came):
    for name in PLACES:
        if came.left[name] != OLD:
            yield f"what lay at the name {name} is lost"
