"""Random readings of the clock, deadlines that lie around them, and where the counters of rounds and timers begin."""

LAST = (1 << 64) - 1


def readings(rng, sessions):
    """Readings of the clock, of which many don't move, the first mostly: the sessions' first visits take those."""
    reading = rng.choice([0, 0, 0, 10, 1000, LAST - 60])
    found = [reading] * rng.randrange(sessions + 2)
    steps = rng.choice([[0, 0, 0, 1], [0, 40], [0, 0, 40], [0, 0, 0, 1, 1, 10, 40], [1, 5]])
    for _ in range(rng.choice([0, 1, 2, 3, 4, 5, 6, 8, 12, 30])):
        reading = min(reading + rng.choice(steps), LAST)
        found.append(reading)
    return found


def deadline(rng, found):
    """A deadline at a reading, mostly at one above the first, next to one, or far from all."""
    if rng.random() < 0.12:
        return rng.choice([0, 50, 5000000000, LAST])
    above = [reading for reading in found if reading > found[0]]
    at = rng.choice(above if above and rng.random() < 0.8 else found or [50])
    return min(max(at + rng.choice([-1, 0, 0, 0, 1]), 0), LAST)


def deadlines(rng, found):
    """What the sessions of one script choose from: few, so that some of them have the same, and some none."""
    few = [str(deadline(rng, found)) for _ in range(rng.choice([1, 1, 2, 3]))]
    return few + ["-"] * rng.choice([0, 0, 1, 3])


def start(rng):
    """A `start` line: now and then the counters' ends are near."""
    ends = [LAST, LAST - 1, LAST - 2, LAST - 4]
    tick, timer = (rng.choice(ends) if rng.random() < 0.3 else rng.choice([0, 6, 1 << 40]) for _ in range(2))
    return f"start {tick} {timer}"
