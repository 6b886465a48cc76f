"""Signals that end the desk: each becomes an exception, so that no temporary file is left."""
import collections.abc
import contextlib
import signal
import time
import typing

ENDING = (signal.SIGINT, signal.SIGTERM, signal.SIGHUP)


class Interrupted(BaseException):
    """The desk is to end, with this status."""

    def __init__(self, status: int):
        super().__init__(status)
        self.status = status


class TimeOver(BaseException):
    """The time that was given is over."""


class Ending:
    """Whether the desk ends already: a second signal would come while the first is dealt with."""

    is_begun = False


def on_signal(number: int, _: object) -> None:
    if not Ending.is_begun:
        Ending.is_begun = True
        raise Interrupted(128 + number)


def put_all(handler: typing.Any) -> None:
    """Sets what such signals do; one that is ignored stays so."""
    for number in ENDING:
        if signal.getsignal(number) != signal.SIG_IGN:
            signal.signal(number, handler)


def take() -> None:
    """From now on a signal that ends the desk is an exception."""
    put_all(on_signal)


def leave() -> None:
    """From now on such a signal ends the desk without a word."""
    Ending.is_begun = True
    with held_back():
        put_all(signal.SIG_DFL)


def on_alarm(*_: object) -> None:
    raise TimeOver


def within_time(end: float | None, work: collections.abc.Callable[[], object]) -> None:
    """Does the work, until that time (of time.monotonic) if one is given."""
    signal.signal(signal.SIGALRM, on_alarm)
    try:
        try:
            if end is not None:
                # (0 would be never)
                signal.setitimer(signal.ITIMER_REAL, max(0.001, end - time.monotonic()))
            work()
        finally:
            signal.setitimer(signal.ITIMER_REAL, 0)
    except TimeOver:
        pass


@contextlib.contextmanager
def held_back() -> collections.abc.Iterator[None]:
    """No such signal comes meanwhile; it comes afterwards."""
    before = signal.pthread_sigmask(signal.SIG_BLOCK, (*ENDING, signal.SIGALRM))
    try:
        yield
    finally:
        signal.pthread_sigmask(signal.SIG_SETMASK, before)
