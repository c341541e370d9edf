"""In which order the messages of the other side come, by their sequence numbers (RFC 2743, 1.2.3)."""

import enum
from typing import List, Optional

__all__ = ["Order", "SequenceWindow"]


class Order(enum.Enum):
    """What a message is to those that came before it (RFC 2743, 1.2.3)."""

    IN_ORDER = "the next message"
    GAP = "a later message than the next one: some are missing"
    OUT_OF_ORDER = "a message that was missing, after a later one"
    REPLAYED = "a message that came before"
    OLD = "a message so old that it may have come before"


class SequenceWindow:
    """Which sequence numbers of the other side's messages came, of the last 64. Its callers see to it that threads take turns."""

    SIZE = 64

    def __init__(self, first: int) -> None:
        self._first = first
        self._last: Optional[int] = None
        self._slots: List[Optional[int]] = [None] * self.SIZE

    def order_of(self, number: int) -> Order:
        """What a message of this number is."""
        if number < self._first:
            return Order.OLD
        if self._last is None or number > self._last:
            return Order.IN_ORDER if number == (self._first if self._last is None else self._last + 1) else Order.GAP
        if self._last - number >= self.SIZE:
            return Order.OLD
        return Order.REPLAYED if self._slots[number % self.SIZE] == number else Order.OUT_OF_ORDER

    def take(self, number: int) -> Order:
        """What a message of this number is, which came from now on, unless it is REPLAYED or OLD."""
        order = self.order_of(number)
        if order in (Order.REPLAYED, Order.OLD):
            return order
        self._slots[number % self.SIZE] = number
        if self._last is None or number > self._last:
            self._last = number
        return order
