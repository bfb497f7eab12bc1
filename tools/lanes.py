"""Tasks side by side in lanes, each once what it waits for has ended and its memory is there, and what each took.

A task's key is a tuple (a crate, and what is done with it) or a crate's name. It is what it waits for, its work in lines,
its memory in bytes, and a call that gets what the tasks before gave and the number of its jobs, as the kit's command `rt`
has them. Of those that are ready the one with the longest chain of others behind it begins first. A smaller one passes
one that waits for memory; where nothing runs, a task begins however little memory there is.
"""
import contextvars
import os
import subprocess
import time
from concurrent.futures import FIRST_COMPLETED, ThreadPoolExecutor, wait

# Tasks that fill what proofs leave free.
FILLING = ("edits", "seed")
# The task in whose call this code runs.
TASK = contextvars.ContextVar("task", default=None)


class Took:
    """What a task took, in seconds: of a lane, of processors, and how long it waited for memory while a lane was idle."""

    def __init__(self):
        self.lane = self.processor = self.waited = 0.0


class Timed(subprocess.Popen):
    """A process whose processor time counts for the task that waits for its end."""

    def _try_wait(self, wait_flags):
        try:
            ended, status, used = os.wait4(self.pid, wait_flags)
        except ChildProcessError:
            return super()._try_wait(wait_flags)
        if ended and TASK.get():
            TASK.get().processor += used.ru_utime + used.ru_stime
        return ended, status


class Threads(ThreadPoolExecutor):
    """Threads that know of the task that began them."""

    def submit(self, call, /, *given, **named):
        return super().submit(contextvars.copy_context().run, call, *given, **named)


def chains(tasks, much):
    """For each task how much it is with the longest chain of those behind it, and which of these comes next."""
    behind, following = dict.fromkeys(tasks, 0), {}
    # (a task comes after those that it waits for)
    for key in reversed([*tasks]):
        behind[key] += much(key)
        for it in tasks[key][0]:
            if behind[key] > behind[it]:
                behind[it], following[it] = behind[key], key
    return behind, following


def parts_of(key):
    """Whose task it is, and what is done."""
    return (key, "proof") if isinstance(key, str) else key[:2]


def in_lanes(tasks, lanes, memory):
    """Runs the tasks. Returns what each gave, and what each took."""
    behind, _ = chains(tasks, lambda it: tasks[it][1])
    left = sorted(tasks, key=lambda it: (parts_of(it)[1] in FILLING, -behind[it]))
    given, running, took = {}, {}, {it: Took() for it in tasks}

    def call(key):
        TASK.set(took[key])
        began = time.monotonic()
        try:
            return tasks[key][3](given, 1)
        finally:
            took[key].lane = time.monotonic() - began

    with Threads(lanes) as pool:
        while left or running:
            lacking = []
            for key in [it for it in left if all(below in given for below in tasks[it][0])]:
                if len(running) == lanes:
                    break
                if running and tasks[key][2] > memory - sum(tasks[it][2] for it in running.values()):
                    lacking.append(key)
                    continue
                left.remove(key)
                running[pool.submit(call, key)] = key
            is_idle, began = len(running) < lanes, time.monotonic()
            for it in wait(running, return_when=FIRST_COMPLETED).done:
                given[running.pop(it)] = it.result()
            for key in lacking if is_idle else ():
                took[key].waited += time.monotonic() - began
    return given, took


def name_of(key):
    """What a task is called: that of a proof by its crate."""
    crate, what = parts_of(key)
    return crate if what == "proof" else f"{crate}: {what}"


def table_of(tasks, took, unit, least=5):
    """What the tasks took, as lines: those of at least so many seconds, the sum, and the longest chain, also in units of
    the task of that key."""
    lines = ["  lane s  processor s  waited s  task"]
    told = sorted((it for it in took if took[it].lane + took[it].waited >= least), key=lambda it: -took[it].lane)
    for key in told:
        lines.append(f"{took[key].lane:8.0f} {took[key].processor:12.0f} {took[key].waited:9.0f}  {name_of(key)}")
    ways, following = chains(tasks, lambda it: took[it].lane)
    chain = [max(ways, key=ways.get)] if ways else []
    while chain and chain[-1] in following:
        chain.append(following[chain[-1]])
    of_chain = sum(took[it].lane for it in chain)
    one = took[unit].lane if unit in took and took[unit].lane >= least else 0
    in_units = lambda much: f" ({much / one:.0f} times {name_of(unit)})" if one else ""
    total = sum(it.lane for it in took.values())
    processor = sum(it.processor for it in took.values())
    lines.append(f"in all {total:.0f} lane s{in_units(total)}, {processor:.0f} processor s")
    names = [name_of(it) for it in chain if took[it].lane >= least]
    lines.append(f"the longest chain takes {of_chain:.0f} s{in_units(of_chain)}: {', '.join(names)}")
    return lines
