"""Worker processes that do not outlive the process that started them."""
from __future__ import annotations

import concurrent.futures
import contextlib
import os
import signal
from collections.abc import Iterator

PR_SET_PDEATHSIG = 1


@contextlib.contextmanager
def workers(count: int) -> Iterator[concurrent.futures.ProcessPoolExecutor]:
    """So many processes for the time of the context. A signal that ends this process ends them at once."""
    pool = concurrent.futures.ProcessPoolExecutor(count, initializer=end_with_parent, initargs=(os.getpid(),))
    try:
        yield pool
    except SystemExit:
        import multiprocessing

        for worker in multiprocessing.active_children():
            worker.kill()
        raise
    finally:
        with contextlib.suppress(KeyboardInterrupt):
            pool.shutdown(cancel_futures=True)


def end_with_parent(parent: int) -> None:
    """What a worker begins with: it ends where its parent ends, however that ends. An interrupt is the parent's to tell."""
    signal.signal(signal.SIGINT, signal.SIG_IGN)
    for number in (signal.SIGTERM, signal.SIGHUP):
        signal.signal(number, signal.SIG_DFL)
    # (it takes time, in which a signal can come)
    import ctypes

    ctypes.CDLL(None).prctl(PR_SET_PDEATHSIG, signal.SIGKILL, 0, 0, 0)
    if os.getppid() != parent:
        os.kill(os.getpid(), signal.SIGKILL)
