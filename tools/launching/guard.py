"""A guard over what a build or a trial starts: it ends all of it, and removes the rooms, however the launcher ends."""
import contextlib
import os
import shutil
import signal
import subprocess
import sys

from .common import SIGNALS, signals_wait

# Its input ends when the launcher does. It outlives the first signal, which lets rt tidy up. What makes a file until the end is ended
# from outside of the group, so that what is removed after that stays so.
SCRIPT = """
trap '' TERM INT HUP
read -r _
kill -TERM 0
for _ in 1 2 3 4 5; do
    sleep 0.1
    rm -rf -- "$1"
done
setsid sh -c 'kill -KILL "-$0"; rm -rf -- "$1"' $$ "$1"
kill -KILL 0
"""
JOIN = "import os, sys; os.setpgid(0, int(sys.argv[1])); os.execvp(sys.argv[2], sys.argv[2:])"


class Guard:
    """A process group of its own for all that is started, and a folder that is removed in the end. Where there is no guard a signal ends
    the launcher at once, by the system. Where there is one it raises nothing either: what is raised amid an import, a fork or the end
    of Python may be lost there, and the call would go on."""

    def __init__(self, rooms):
        self.rooms = rooms
        with signals_wait():
            ends, self.held = os.pipe()
            how = {"stdin": ends, "stdout": subprocess.DEVNULL, "stderr": subprocess.DEVNULL}
            self.process = subprocess.Popen(["sh", "-c", SCRIPT, "guard", rooms], preexec_fn=os.setpgrp, **how)
            os.close(ends)
            # what is ignored stays so, as under nohup
            self.before = {it: signal.getsignal(it) for it in SIGNALS if signal.getsignal(it) != signal.SIG_IGN}
            for number in self.before:
                signal.signal(number, self.interrupted)

    def __enter__(self):
        return self

    def __exit__(self, *_):
        os.killpg(self.process.pid, signal.SIGKILL)
        self.process.wait()
        with signals_wait():
            os.close(self.held)
            shutil.rmtree(self.rooms, ignore_errors=True)
            for number, handler in self.before.items():
                signal.signal(number, handler)

    def interrupted(self, number, _frame):
        """Has the guard end everything, waits for it, and ends as the signal asks. Further signals change nothing, and one that
        comes while the rooms are removed has that done to its end."""
        for it in self.before:
            # (Python tells of one that is there already and is ignored only now)
            signal.signal(it, lambda *_: None)
        with contextlib.suppress(OSError):
            os.close(self.held)
            os.waitpid(self.process.pid, 0)
        shutil.rmtree(self.rooms, ignore_errors=True)
        os._exit(128 + number)

    def words(self, *command):
        """The words that start a command in the guarded group."""
        return [sys.executable, "-ISc", JOIN, str(self.process.pid), *command]
