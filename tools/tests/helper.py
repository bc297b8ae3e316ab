"""What the tests of the tools share: they run a tool in an empty folder and see what it says."""
import os
import subprocess
import tempfile

ROOT = os.path.dirname(os.path.dirname(os.path.dirname(os.path.abspath(__file__))))
EXAMPLES = os.path.join(ROOT, "examples")
# A tool has so many seconds.
PATIENCE = 60


class Ran:
    """How a tool ended: its status, and what it wrote to standard output and standard error."""

    def __init__(self, status, out, err):
        self.status, self.out, self.err = status, out, err


def as_bytes(text):
    return text if isinstance(text, bytes) else text.encode()


def put(folder, files):
    """Writes files, by their paths, into a folder."""
    for path, text in files.items():
        whole = os.path.join(folder, path)
        os.makedirs(os.path.dirname(whole), exist_ok=True)
        with open(whole, "wb") as it:
            it.write(as_bytes(text))


def ran_command(words, folder, given="", env=None):
    """Runs a command in a folder, with a text on its standard input."""
    told = subprocess.run(
        words, cwd=folder, input=as_bytes(given), stdout=subprocess.PIPE, stderr=subprocess.PIPE, timeout=PATIENCE,
        env={**os.environ, **(env or {})})
    return Ran(told.returncode, *(it.decode("utf-8", "surrogateescape") for it in (told.stdout, told.stderr)))


def ran(tool, *words, given="", files=None):
    """Runs tools/TOOL in an empty folder that holds these files."""
    with tempfile.TemporaryDirectory() as folder:
        put(folder, files or {})
        return ran_command([os.path.join(ROOT, "tools", tool), *words], folder, given)
