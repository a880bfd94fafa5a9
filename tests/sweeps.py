"""Runs of cases with one fault each, side by side on all processors.

Which faults are tried depends on no clock and no schedule: all that a sweep has. A sweep of which one is left out has failed."""

import os
from concurrent.futures import ThreadPoolExecutor

import preload

BATCH = 500  # faults that one process tries
AT_ONCE = os.cpu_count()


class Sweep:
    """A case and its runs with a fault each.

    `numbers` gives the numbers of the faults, from the end of the run without one; `judge` what is wrong with the end of a
    run beside that, or None; `judge_first` what is wrong with the run without a fault. If it `ends_unmet`, the numbers
    go on until a run meets no fault, as what the library counted in it shows."""

    def __init__(self, name, program, library, case, numbers, judge, judge_first=None, unit="", ends_unmet=False, **faults):
        self.name, self.program, self.library, self.case, self.faults = name, program, library, case, faults
        self.numbers, self.judge, self.judge_first = numbers, judge, judge_first or (lambda first: None)
        self.unit, self.ends_unmet = unit, ends_unmet

    def run(self, numbers=()):
        return preload.ends(self.program, self.library, self.case, numbers, **self.faults)

    def said_of(self, first, end):
        said = self.judge(first, end)
        return said and f"{self.unit} {end.number}: {said}; {end.shown()}"

    def judge_batch(self, numbers):
        """How many were tried, and what is said of the first that isn't right."""
        first, *ends = self.run(numbers)
        for count, end in enumerate(ends, 1):
            said = self.said_of(first, end)
            if said:
                return count, said
        return len(numbers), None

    def judge_unmet(self, first, number):
        """The same from this number on, until a run meets no fault; that one isn't counted."""
        tried = 0
        while True:
            end = self.run([number + tried])[1]
            said = self.said_of(first, end)
            if said or end.counted < end.number:
                return tried, said
            tried += 1


class Running:
    """A sweep in a pool of threads."""

    def __init__(self, pool, sweep):
        self.pool, self.sweep = pool, sweep
        self.begun = pool.submit(self.begin)

    def begin(self):
        first = self.sweep.run()[0]
        numbers = list(self.sweep.numbers(first))
        batches = [numbers[at : at + BATCH] for at in range(0, len(numbers), BATCH)]
        return first, len(numbers), [self.pool.submit(self.sweep.judge_batch, it) for it in batches]

    def result(self):
        """How many faults there are, and what is said of the sweep."""
        first, count, judging = self.begun.result()
        given = [it.result() for it in judging]
        tried = sum(count for count, _ in given)
        said = self.sweep.judge_first(first) or next((said for _, said in given if said), None)
        if not said and self.sweep.ends_unmet:
            more, said = self.sweep.judge_unmet(first, count + 1)
            tried, count = tried + more, count + more
        if not said and tried < count:
            said = f"only {tried} of {count} were tried"
        return count, said


def judged(sweeps):
    """Names with what was tried and what is said of them, each as soon as it and those before it are known."""
    with ThreadPoolExecutor(AT_ONCE) as pool:
        for running in [Running(pool, sweep) for sweep in sweeps]:
            try:
                count, said = running.result()
                yield running.sweep.name, f"{count} {running.sweep.unit}{'s' * (count != 1)}" if count else "", said
            except OSError as error:
                yield running.sweep.name, "", str(error)
