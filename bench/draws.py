"""Random numbers that are the same on every machine and in every version of Python."""
import hashlib

MULTIPLIER = 6364136223846793005
INCREMENT = 1442695040888963407
STATES = 2**64


class Draws:
    """A linear congruential generator of 64 bits, of which the upper 31 are used."""

    def __init__(self, state):
        self.state = state

    @classmethod
    def named(cls, name):
        """The draws of a name: names that differ in one letter have nothing in common."""
        digest = hashlib.sha256(name.encode("ascii")).digest()
        return cls(int.from_bytes(digest[:8], "big"))

    def below(self, bound):
        """The next draw: a number from 0 to bound - 1."""
        self.state = (self.state * MULTIPLIER + INCREMENT) % STATES
        return (self.state >> 33) % bound

    def choose(self, items):
        """One of the items of a list."""
        return items[self.below(len(items))]

    def shuffled(self, items):
        """The items in some order, each order as likely as any other."""
        rest, order = list(items), []
        while rest:
            order.append(rest.pop(self.below(len(rest))))
        return order
