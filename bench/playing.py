"""What the benches share: the program behind its pipes, folders that go again, and medians."""
import contextlib
import functools
import os
import shutil
import statistics
import subprocess
import tempfile

TOP = os.path.dirname(os.path.dirname(os.path.abspath(__file__)))


@functools.cache
def program():
    """The path of the program, which its start script builds where it is missing or old."""
    subprocess.run(
        [os.path.join(TOP, "bin", "seatable"), "help"], stdout=subprocess.DEVNULL
    )
    return os.path.join(TOP, "crates", "seatable_main", "out", "seatable_main")


class Playing:
    """The program's `play` on a folder, from its start to the end of its input. Use it by `with`."""

    def __init__(self, folder):
        self.process = subprocess.Popen(
            [program(), "play", folder],
            stdin=subprocess.PIPE,
            stdout=subprocess.PIPE,
            bufsize=0,
        )

    def __enter__(self):
        return self

    def __exit__(self, *fault):
        self.process.stdin.close()
        self.process.stdout.close()
        self.process.wait()

    def say(self, line, front=b'{"version":'):
        """Gives a line, which ends in a newline, and waits for its reply, which has to begin with `front`."""
        asked, answers = self.process.stdin.fileno(), self.process.stdout.fileno()
        left = memoryview(line)
        try:
            while left:
                left = left[os.write(asked, left) :]
        except BrokenPipeError:
            raise SystemExit("the program ended before it read its lines") from None
        reply = piece = os.read(answers, 65_536)
        while piece and not reply.endswith(b"\n"):
            piece = os.read(answers, 65_536)
            reply += piece
        if not reply.startswith(front) or not reply.endswith(b"\n"):
            raise SystemExit(f"unexpected reply: {reply!r}")
        return reply


@contextlib.contextmanager
def new_folder(parent):
    """A new folder below `parent`, which is made where it is absent. The new one is removed at the end."""
    os.makedirs(parent, exist_ok=True)
    folder = tempfile.mkdtemp(dir=parent)
    try:
        yield folder
    finally:
        shutil.rmtree(folder)


def median_ms(seconds):
    """The median of some times in seconds, in milliseconds."""
    return statistics.median(seconds) * 1000
