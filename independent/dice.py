"""Numbers that look random and are the same on every machine: a linear congruential generator, its multiplier Knuth's of MMIX."""


class Dice:
    def __init__(self, seed):
        self.state = seed

    def below(self, n):
        """A number from 0 to n - 1."""
        self.state = (self.state * 6364136223846793005 + 1442695040888963407) % 2**64
        return (self.state >> 33) % n

    def between(self, low, high):
        """A number from low to high, both included."""
        return low + self.below(high - low + 1)

    def choice(self, values):
        return values[self.below(len(values))]

    def shuffled(self, values):
        """The values in some order."""
        left, order = list(values), []
        while left:
            order.append(left.pop(self.below(len(left))))
        return order

    def some(self, values, n):
        """Some n of the values, in the order they stand in."""
        chosen = sorted(self.shuffled(range(len(values)))[:n])
        return [values[i] for i in chosen]
