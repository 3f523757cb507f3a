"""What the Python scripts of this folder share: how they take their words, make runs side by side, count their tests and end."""

import atexit
import concurrent.futures
import os
import shutil
import subprocess
import sys
import tempfile


class Pool:
    """As many processes as there are processors; each calls `begin` with these words first."""

    def __init__(self, begin, *words):
        self.processes = concurrent.futures.ProcessPoolExecutor(len(os.sched_getaffinity(0)), initializer=begin, initargs=words)

    def each(self, work, items, chunk=1):
        """The answers of `work` for these items, in their order."""
        return self.processes.map(work, items, chunksize=chunk)

    def __enter__(self):
        return self

    def __exit__(self, *_):
        self.processes.shutdown(cancel_futures=True)


class Suite:
    """The tests of a script, on the program whose path is its last word."""

    def __init__(self, name):
        self.name, self.passed, self.failed = name, 0, 0
        words = sys.argv[1:]
        self.long = words[:1] == ["--long"]
        path = words[-1] if len(words) == 1 + self.long else ""
        if not (os.path.isfile(path) and os.access(path, os.X_OK)):
            print(f"usage: {sys.argv[0]} [--long] PATH_OF_PROGRAM (no program at '{path}')", file=sys.stderr)
            sys.exit(2)
        self.program = os.path.realpath(path)
        self.scratch = tempfile.mkdtemp()
        atexit.register(shutil.rmtree, self.scratch, ignore_errors=True)

    def test(self, name, said):
        """Counts a test; `said` is what is wrong, a line each."""
        said = list(said)
        if not said:
            self.passed += 1
            return
        self.failed += 1
        print(f"failed {name}")
        for line in said[:8]:
            print(f"    {line}"[:300])
        if len(said) > 8:
            print(f"    and {len(said) - 8} more")

    def note(self, text):
        """A line for who watches the long form."""
        if self.long:
            print(text, flush=True)

    def finish(self, reason=None):
        """The last line; `reason` says why nothing could be tried here."""
        if reason:
            print(f"skipped all of {self.name}: {reason}")
        print(f"refusals {self.name}: {self.passed} passed, {self.failed} failed")
        sys.exit(self.failed > 0 or self.passed == 0 and not reason)


def built(suite, source, target):
    """The library for the loader that `cc` makes of a C file, in the scratch folder; None and why if it makes none."""
    if shutil.which("cc") is None:
        return None, "there is no cc"
    library = f"{suite.scratch}/{target}"
    made = subprocess.run(["cc", "-O2", "-shared", "-fPIC", "-o", library, source, "-ldl"], capture_output=True)
    if made.returncode != 0:
        return None, "cc refuses the C file: " + made.stderr.decode(errors="replace").split("\n")[0]
    return library, None
