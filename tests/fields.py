"""The fields of Reed-Solomon codes, by logarithms, for the scripts that work out by other means what a program is to print."""
MODULI = [None, 0x3, 0x7, 0xB, 0x13, 0x25, 0x43, 0x89, 0x11D]
CONSTANTS = {2: 1, 4: 2, 6: 1, 8: 8}


class Field:
    """Logarithms to a generator; `times` is the schoolbook product."""

    def __init__(self, size, times):
        for generator in range(1, size):
            powers = [1]
            while (power := times(powers[-1], generator)) != 1:
                powers.append(power)
            if len(powers) == size - 1:
                break
        self.size = size
        self.powers = powers * 2
        self.logs = {power: i for i, power in enumerate(powers)}

    def mul(self, a, b):
        return self.powers[self.logs[a] + self.logs[b]] if a and b else 0

    def div(self, a, b):
        return self.powers[self.logs[a] + self.size - 1 - self.logs[b]] if a else 0


def polynomial_times(width):
    def times(a, b):
        product = 0
        for i in range(width):
            if b >> i & 1:
                product ^= a << i
        for i in reversed(range(width, 2 * width)):
            if product >> i & 1:
                product ^= MODULI[width] << (i - width)
        return product
    return times


def extension_times(width):
    half, c = width // 2, CONSTANTS[width]
    times = polynomial_times(half)

    def extended(a, b):
        (a1, a0), (b1, b0) = divmod(a, 1 << half), divmod(b, 1 << half)
        low = times(a0, b0) ^ times(c, times(a1, b1))
        high = times(a0, b1) ^ times(a1, b0) ^ times(a1, b1)
        return low | high << half
    return extended
