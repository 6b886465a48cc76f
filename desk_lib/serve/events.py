"""What a browser hears as it happens: events of a channel, which each listener gets from the one after its last on."""
import collections.abc
import json
import threading
import typing

# After how many seconds without an event a comment is sent, so that both sides see that the other is there; and how many events a
# channel remembers for those who come late.
PAUSE, REMEMBERED = 15.0, 5000


class Event(typing.NamedTuple):
    """An event: its number, its name, and its data as JSON."""

    number: int
    name: str
    data: str

    def bytes(self) -> bytes:
        return f"id: {self.number}\nevent: {self.name}\ndata: {self.data}\n\n".encode()


class Channel:
    """Events in their order. After the last one nothing more comes."""

    def __init__(self) -> None:
        self.events: list[Event] = []
        self.first, self.is_over = 1, False
        self.condition = threading.Condition()

    def send(self, name: str, data: typing.Any, is_last: bool = False) -> None:
        """Sends an event to all who listen."""
        with self.condition:
            if self.is_over:
                return
            self.events.append(Event(self.first + len(self.events), name, json.dumps(data)))
            if len(self.events) > REMEMBERED:
                self.first += len(self.events) - REMEMBERED
                del self.events[:-REMEMBERED]
            self.is_over = is_last
            self.condition.notify_all()

    def last(self) -> int:
        """The number of the last event; 0 if there was none."""
        with self.condition:
            return self.first + len(self.events) - 1

    def after(self, number: int, wait: float) -> list[Event]:
        """The events after the one of this number. Waits for some, but not longer than that many seconds."""
        with self.condition:
            self.condition.wait_for(lambda: self.is_over or self.first + len(self.events) - 1 > number, wait)
            return self.events[max(0, number + 1 - self.first) :]

    def stream(self, number: int) -> collections.abc.Iterator[bytes]:
        """The events after the one of this number, as server-sent events, until the last."""
        yield b": the desk is here\n\n"
        while True:
            found = self.after(number, PAUSE)
            for event in found:
                number = event.number
                yield event.bytes()
            if not found:
                if self.is_over:
                    return
                yield b": still here\n\n"


class Listeners:
    """How many streams are open; each takes a thread of the server, so there is a limit to them."""

    def __init__(self, most: int) -> None:
        self.most, self.count, self.lock = most, 0, threading.Lock()

    def enter(self) -> bool:
        """Whether one more may be open; if so it is counted."""
        with self.lock:
            if self.count >= self.most:
                return False
            self.count += 1
            return True

    def leave(self) -> None:
        """One is closed."""
        with self.lock:
            self.count -= 1
