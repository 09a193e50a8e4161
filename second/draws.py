"""The draws that make cases (xorshift64*), and the ends of 64-bit numbers."""

MASK = (1 << 64) - 1
I64_MIN = -(1 << 63)
I64_MAX = (1 << 63) - 1


def signed(value):
    """Read the low 64 bits as a two's complement number."""
    value &= MASK
    return value - (1 << 64) if value >> 63 else value


class Generator:
    def __init__(self, seed):
        self.state = (seed * 0x9E3779B97F4A7C15) & MASK

    def next(self):
        self.state ^= self.state >> 12
        self.state ^= (self.state << 25) & MASK
        self.state ^= self.state >> 27
        return (self.state * 0x2545F4914F6CDD1D) & MASK

    def take(self, lo, hi):
        """A number from lo to hi, both included."""
        span = (hi - lo + 1) & MASK
        r = self.next()
        if span == 0:
            return signed(r)
        return signed(lo + r % span)

    def pick(self, choices):
        return choices[self.take(0, len(choices) - 1)]
