"""The processor time, the peak memory and the page faults of a command."""
import os
import subprocess


class Usage:
    """What a finished command used."""

    def __init__(self, used):
        self.milliseconds = 1000 * (used.ru_utime + used.ru_stime)
        self.mebibytes = used.ru_maxrss / 1024
        self.faults = used.ru_minflt


def usage(command, settings=None, standard_input=subprocess.DEVNULL):
    """Runs a command whose output is dropped, with additional environment variables. Returns its
    usage."""
    process = subprocess.Popen(
        command,
        env={**os.environ, **(settings or {})},
        stdin=standard_input,
        stdout=subprocess.DEVNULL,
    )
    _, status, used = os.wait4(process.pid, 0)
    process.returncode = os.waitstatus_to_exitcode(status)
    if process.returncode:
        raise SystemExit(f"{command} ended with {process.returncode}")
    return Usage(used)


def least_in_turns(runs, count):
    """Calls each function of `runs`, which returns a usage, `count` times in turns. Returns the
    usage with the least processor time of each."""
    found = [[] for _ in runs]
    for _ in range(count):
        for run, usages in zip(runs, found):
            usages.append(run())
    return [min(usages, key=lambda used: used.milliseconds) for usages in found]
