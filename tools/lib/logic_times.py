"""How late the cycles of functions were."""


class Times:
    """Of the calls by `every`: how many, the latest and whose, how many over half a period, how many left out."""

    def __init__(self):
        self.cycles, self.latest, self.whose, self.over, self.left_out = 0, 0.0, "", 0, 0

    def take(self, function, late, left_out):
        self.cycles += 1
        self.left_out += left_out
        self.over += late > function.period / 2
        if late > self.latest:
            self.latest, self.whose = late, function.name

    def add(self, other):
        self.cycles, self.over = self.cycles + other.cycles, self.over + other.over
        self.left_out += other.left_out
        if other.latest > self.latest:
            self.latest, self.whose = other.latest, other.whose

    def text(self) -> str:
        latest = f"the latest {1000 * self.latest:.1f} ms late ({self.whose}), " if self.whose else ""
        return f"{self.cycles} cycles, {latest}{self.over} over half a period, {self.left_out} left out"
