"""Work of several processes ends when there is enough, when its time is over, and by a signal."""

import functools
import os
import signal
import time

from hostile import slices


def part(pause, number, turn, seconds):
    """Waits, and gives the number of the job with its turn."""
    slices.leave_signals()
    time.sleep(min(pause, seconds))
    return (number, turn), turn + 1


def turns_of(seconds, most, pause=0.01, jobs=2):
    """The turns of each job until so many slices were done."""
    found = []

    def is_enough(one):
        found.append(one)
        return len(found) >= most

    slices.work(functools.partial(part, pause), jobs, seconds, is_enough)
    return found


def test_each_job_goes_on_where_it_was():
    found = turns_of(60, 6)
    assert 6 <= len(found) <= 7
    for number in (0, 1):
        turns = [turn for job, turn in found if job == number]
        assert turns == list(range(len(turns)))


def test_the_time_is_over():
    assert len(turns_of(0, 100)) == 2


def test_a_signal_ends_the_work_and_what_was_found_is_kept():
    found = []

    def is_enough(one):
        found.append(one)
        if len(found) == 2:
            os.kill(os.getpid(), signal.SIGTERM)
        return False

    before = signal.getsignal(signal.SIGTERM)
    slices.work(functools.partial(part, 0.01), 1, 60, is_enough)
    assert 2 <= len(found) <= 3 and signal.getsignal(signal.SIGTERM) == before
