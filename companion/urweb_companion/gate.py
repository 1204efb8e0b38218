"""Where requests wait while the program is started anew, and what they then find."""
import threading
from collections.abc import Iterator
from contextlib import contextmanager
from dataclasses import dataclass


@dataclass(frozen=True)
class Serving:
    """The program answers on a port."""

    port: int


@dataclass(frozen=True)
class Ended:
    """The program ended with a status, and had said something."""

    status: int
    said: bytes


State = Serving | Ended


class Gate:
    """It is closed until there is a state."""

    def __init__(self) -> None:
        self._changed = threading.Condition()
        self._state: State | None = None
        self._inside = 0

    @contextmanager
    def passing(self, seconds: float) -> Iterator[State | None]:
        """Gives the state once there is one, and none where that takes too long."""
        with self._changed:
            self._changed.wait_for(lambda: self._state is not None, seconds)
            self._inside += 1
            state = self._state
        try:
            yield state
        finally:
            with self._changed:
                self._inside -= 1
                self._changed.notify_all()

    def open(self, state: State) -> None:
        with self._changed:
            self._state = state
            self._changed.notify_all()

    def close(self, seconds: float) -> None:
        """Lets nobody in any more, and waits so long for those who are inside."""
        with self._changed:
            self._state = None
            self._changed.wait_for(lambda: self._inside == 0, seconds)
