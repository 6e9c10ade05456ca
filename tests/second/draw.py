"""Drawn numbers that are the same in every version of Python."""

MASK = (1 << 64) - 1


class Draw:
    """A 64-bit xorshift generator; the same seed always draws the same numbers."""

    def __init__(self, seed):
        # The xorshift state must not be 0, and seeds that are close must start far apart.
        self.state = (seed + 1) * 0x9E3779B97F4A7C15 & MASK or 1

    def number(self):
        """A number of 32 bits."""
        state = self.state
        state ^= state << 13 & MASK
        state ^= state >> 7
        state ^= state << 17 & MASK
        self.state = state
        # The product's high half: the state's own low bits are too regular.
        return (state * 0x2545F4914F6CDD1D & MASK) >> 32

    def below(self, n):
        """A number from 0 to n - 1."""
        return self.number() * n >> 32

    def between(self, least, most):
        """A number from least to most, both included."""
        return least + self.below(most - least + 1)

    def word(self):
        return self.below(0x10000)

    def words(self, count):
        return [self.word() for _ in range(count)]

    def pick(self, choices):
        return choices[self.below(len(choices))]
