"""Runs one command under a limit of processor time, and measures what it took."""
import os
import resource
import signal
import subprocess
import tempfile
import threading
from dataclasses import dataclass


@dataclass(frozen=True)
class Measured:
    """What a command printed, how it ended, and what it cost."""
    output: str
    status: int  # negative where a signal ended it
    seconds: float  # of the processor, in user code and in the system
    megabytes: float  # the most that it held at once

    def timed_out(self):
        """Whether it was ended for its time."""
        return self.status in (-signal.SIGXCPU, -signal.SIGKILL)


def measure(command, folder, limit):
    """Runs a command in a folder. It is ended after `limit` seconds of the processor, or ten times as many of the clock."""
    def bound():
        resource.setrlimit(resource.RLIMIT_CPU, (limit, limit + 1))

    with tempfile.TemporaryFile() as output:
        process = subprocess.Popen(command, cwd=folder, stdin=subprocess.DEVNULL, stdout=output,
                                   stderr=subprocess.DEVNULL, preexec_fn=bound)
        timer = threading.Timer(10 * limit, process.kill)
        timer.start()
        _, status, usage = os.wait4(process.pid, 0)
        timer.cancel()
        process.returncode = os.waitstatus_to_exitcode(status)
        output.seek(0)
        text = output.read().decode("latin-1")
    return Measured(text, process.returncode, usage.ru_utime + usage.ru_stime, usage.ru_maxrss / 1024)
