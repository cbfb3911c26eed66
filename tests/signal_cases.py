"""How signals end `mount-git`, tried with programs that begin as it does."""

import contextlib
import os
import pathlib
import signal
import subprocess
import sys
from collections.abc import Iterator

import cases
import paths  # before what stands in scripts/
from checks import PATIENCE
from programs import MOUNT_GIT
from yakembi import ending

SCRIPTS = pathlib.Path(MOUNT_GIT).parent
BEGIN = f"""
import os, signal, sys, time
sys.path.insert(0, {str(SCRIPTS)!r})
from yakembi import ending
def tell(word):
    print(word, flush=True)
ending.exit_at(*ending.SIGNALS)
"""
# It waits, and releases what it holds, which takes as long as its input is open.
LETS_GO = BEGIN + """
try:
    tell("begun")
    time.sleep(60)
finally:
    tell("lets go")
    sys.stdin.read()
    tell("let go")
"""
# The exit is raised where Python loses it; then it would mount.
LOST = BEGIN + """
class Lost:
    def __del__(self):
        tell("begun")
        time.sleep(60)
Lost()
tell("lost")
with ending.calls(lambda: tell("ends")):
    tell("mounts")
"""
# It shows something until its input ends, and goes then, which takes a while. At each byte it says that it still runs.
SHOWS = BEGIN + """
with ending.calls(lambda: tell("ends")):
    tell("begun")
    while os.read(0, 1):
        tell("goes on")
tell("over")
time.sleep(0.5)
"""
# While it ends it is told to, once more.
ENDS_AGAIN = BEGIN + """
def end():
    tell("ends")
    os.kill(os.getpid(), signal.SIGTERM)
    tell("ended")
with ending.calls(end):
    tell("begun")
    while os.read(0, 1):
        tell("goes on")
tell("over")
"""


class Signals(cases.Case):
    """A program, and what it tells, line by line."""

    def setUp(self) -> None:
        super().setUp()
        self.addCleanup(signal.alarm, 0)
        signal.alarm(PATIENCE)

    @contextlib.contextmanager
    def run_of(self, program: str, *ignored: signal.Signals) -> Iterator[subprocess.Popen[str]]:
        """A run that has begun, of which whoever started it ignores some signals."""
        def begin() -> None:
            for number in ending.SIGNALS:
                signal.signal(number, signal.SIG_IGN if number in ignored else signal.SIG_DFL)
        with subprocess.Popen([sys.executable, "-c", program], stdin=subprocess.PIPE, stdout=subprocess.PIPE,
                              stderr=subprocess.DEVNULL, text=True, preexec_fn=begin) as run:
            self.addCleanup(run.kill)
            self.says(run, "begun")
            yield run

    def says(self, run: subprocess.Popen[str], *lines: str) -> None:
        assert run.stdout is not None
        self.assertEqual([run.stdout.readline() for _ in lines], [f"{line}\n" for line in lines])

    def goes_on(self, run: subprocess.Popen[str]) -> None:
        """No signal is under way any more, so that the next one isn't one that comes meanwhile."""
        assert run.stdin is not None
        run.stdin.write(".")
        run.stdin.flush()
        self.says(run, "goes on")

    def ends(self, run: subprocess.Popen[str], status: int, *lines: str) -> None:
        assert run.stdin is not None and run.stdout is not None
        run.stdin.close()
        self.assertEqual((run.stdout.read().splitlines(), run.wait(PATIENCE)), (list(lines), status))

    def test_second(self) -> None:
        """What was begun to be released by one signal is released, whatever else comes."""
        for first in ending.SIGNALS:
            with self.run_of(LETS_GO) as run:
                run.send_signal(first)
                self.says(run, "lets go")
                for later in ending.SIGNALS:
                    run.send_signal(later)
                self.ends(run, 1, "let go")

    def test_lost(self) -> None:
        """A signal that came in a destructor is heeded before anything is mounted."""
        with self.run_of(LOST) as run:
            run.terminate()
            self.ends(run, 1, "lost")

    def test_shown(self) -> None:
        """What is shown ends by each signal, as often as one comes; after it none does anything, and the status is
        that of the end, also if one comes as the program goes."""
        with self.run_of(SHOWS) as run:
            for number in (*ending.SIGNALS, *ending.SIGNALS):
                run.send_signal(number)
                self.says(run, "ends")
                self.goes_on(run)
            assert run.stdin is not None
            run.stdin.close()
            self.says(run, "over")
            while run.poll() is None:
                for number in ending.SIGNALS:
                    run.send_signal(number)
                with contextlib.suppress(subprocess.TimeoutExpired):
                    run.wait(0.01)
            self.assertEqual(run.returncode, 0)

    def test_meanwhile(self) -> None:
        """One that comes while another is heeded changes nothing, however many come; the next one does."""
        with self.run_of(ENDS_AGAIN) as run:
            for number in ending.SIGNALS:
                run.send_signal(number)
                self.says(run, "ends", "ended")
                self.goes_on(run)
            self.ends(run, 0, "over")

    def test_ignored(self) -> None:
        """Those that whoever started it ignores do nothing, as with `nohup`, and for a shell's background; but SIGTERM
        always does."""
        ignored = signal.SIGHUP, signal.SIGINT
        with self.run_of(LETS_GO, *ending.SIGNALS) as run:
            for number in (*ignored, signal.SIGTERM):
                run.send_signal(number)
            self.says(run, "lets go")
            self.ends(run, 1, "let go")
        with self.run_of(SHOWS, *ignored) as run:
            for number in ignored:
                run.send_signal(number)
            run.terminate()
            self.says(run, "ends")
            self.ends(run, 0, "over")

    def test_loading(self) -> None:
        """Ctrl-C while the command is loaded ends it with nothing said."""
        waits = self.folder / "wait"
        os.mkfifo(waits)
        # The first module that it loads of its own waits here.
        package = self.folder / "yakembi"
        package.mkdir()
        (package / "__init__.py").write_text(f"print('begun', flush=True)\nopen({str(waits)!r}).read()\n")
        command = self.folder / "mount-git"
        command.write_bytes(pathlib.Path(MOUNT_GIT).read_bytes())
        with subprocess.Popen([sys.executable, str(command)], stdout=subprocess.PIPE, stderr=subprocess.STDOUT,
                              text=True, preexec_fn=lambda: signal.signal(signal.SIGINT, signal.SIG_DFL)) as run:
            self.addCleanup(run.kill)
            self.says(run, "begun")
            run.send_signal(signal.SIGINT)
            assert run.stdout is not None
            self.assertEqual((run.stdout.read(), run.wait(PATIENCE)), ("", -signal.SIGINT))
