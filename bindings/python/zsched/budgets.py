"""A budget of retries that callers share."""
import math
import threading


class Budget:
    """Tokens that many calls share, as in gRPC's retry throttling.

    A failed attempt takes a token, and one that doesn't fail adds `ratio`, up to `tokens`. A retry
    follows only while more than half of `tokens` are there; else the call gives up, as if its schedule
    were done. So calls stop retrying when most of them fail. Threads and tasks may share a budget; a
    pickled one is another budget with the same tokens."""

    def __init__(self, tokens: float = 10, ratio: float = 0.1) -> None:
        if not (0 <= tokens < math.inf and 0 <= ratio < math.inf):
            raise ValueError(f"zsched: a budget of {tokens} tokens and the ratio {ratio}")
        self.__setstate__((tokens, ratio, float(tokens)))

    def __getstate__(self) -> tuple[float, float, float]:
        return self._most, self._ratio, self._tokens

    def __setstate__(self, found: tuple[float, float, float]) -> None:
        (self._most, self._ratio, self._tokens), self._lock = found, threading.Lock()

    @property
    def tokens(self) -> float:
        """The tokens that are there."""
        return self._tokens

    def add(self) -> None:
        """Adds `ratio` after an attempt that didn't fail."""
        with self._lock:
            self._tokens = min(self._most, self._tokens + self._ratio)

    def take(self) -> bool:
        """Takes a token after a failed attempt. Returns whether a retry may follow."""
        with self._lock:
            self._tokens = max(0.0, self._tokens - 1)
            return self._tokens > self._most / 2
