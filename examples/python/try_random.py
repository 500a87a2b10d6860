"""140,000 random operations beside a dict: each answer, and the pairs, names rising, every so often and at the end."""

import random

import fkv

NAMES = [f"name {number}" for number in range(3000)] + ["ä" * 15, "x" * 31, b"\xff\x00".decode("utf-8", "surrogateescape")]


def wrapped(value):
    """The value as a number of 128 bits, two's complement."""
    return (value + (1 << 127)) % (1 << 128) - (1 << 127)


def updated(kind, value, amount):
    """What a store of this kind makes of a value, or none, by an amount; None where it declines it."""
    if kind == fkv.COUNT:
        return ((value or 0) + 1) % (1 << 64)
    if kind == fkv.MAX:
        return amount if value is None else max(value, amount)
    total = wrapped((value or 0) + amount)
    return total if kind == fkv.SUM or 0 <= total <= 1_000_000 else None


def update(store, plain, kind, name, amount, is_merge):
    """Makes an update of both."""
    value = updated(kind, plain.get(name), amount)
    if is_merge and kind != fkv.CAPPED_SUM:
        store.merge(name, amount)
    else:
        assert store.rmw(name, amount) == value, name
    if value is not None:
        plain[name] = value


def step(store, plain, kind, draw):
    """Makes one random operation of both, and compares what they answer."""
    name = draw.choice(NAMES)
    what = draw.randrange(10)
    amount = draw.choice([draw.randrange(-100, 100), draw.randrange(-(1 << 63), 1 << 63)])
    if what < 6:
        update(store, plain, kind, name, amount, what == 5)
    elif what < 7:
        bits = 63 if kind == fkv.MAX else 127
        least, end = (0, 1 << 64) if kind == fkv.COUNT else (-(1 << bits), 1 << bits)
        plain[name] = draw.randrange(least, end)
        store[name] = plain[name]
    elif what < 8:
        plain.pop(name, None)
        del store[name]
    else:
        assert store.get(name) == plain.get(name), name
        assert (name in store) == (name in plain)


def compare(store, plain):
    """Compares the pairs of both, names rising as strings of bytes."""
    rising = sorted(plain.items(), key=lambda pair: pair[0].encode("utf-8", "surrogateescape"))
    assert list(store.items()) == rising
    assert list(store) == [name for name, _ in rising]


def run(seed, kind, steps, **settings):
    """So many operations of a store of this kind with these settings; returns how many bytes left its frames."""
    draw, plain = random.Random(seed), {}
    with fkv.Store(kind, **settings) as store:
        for number in range(steps):
            step(store, plain, kind, draw)
            if number % 10_000 == 0:
                compare(store, plain)
            if number % 25_000 == 1:
                store.compact()
        compare(store, plain)
        return store.counts()["evicted"]


def run_cells(seed, steps, **settings):
    """So many operations of a store of cells with these settings; returns how many bytes left its frames."""
    draw, plain = random.Random(seed), {}
    with fkv.Cells(**settings) as cells:
        for number in range(steps):
            name = draw.choice(NAMES)
            what = draw.randrange(4)
            if what < 2:
                plain[name] = cells[name] = draw.randbytes(64)
            elif what < 3:
                plain.pop(name, None)
                del cells[name]
            assert cells.get(name) == plain.get(name), name
            if number % 10_000 == 0:
                compare(cells, plain)
                cells.compact()
        compare(cells, plain)
        return cells.counts()["evicted"]


def refused(name, call):
    """Whether a call raises the fault of this name."""
    try:
        call()
    except fkv.Fault as fault:
        return fault.name == name
    return False


# two frames of 1 KiB in each of four partitions, so that most values have left them
SMALL = {"partition_bits": 2, "bucket_bits": 4, "page_bits": 10, "frames": 2}
assert run(1, fkv.SUM, 40_000, memory="64M") == 0
assert run(2, fkv.SUM, 20_000, **SMALL) > 0
assert run(3, fkv.MAX, 20_000, **SMALL) > 0
assert run(4, fkv.CAPPED_SUM, 20_000, **SMALL) > 0
assert run(5, fkv.COUNT, 20_000, **SMALL) > 0
assert run_cells(6, 20_000, **SMALL) > 0

assert refused("BadConfig", lambda: fkv.Store(fkv.SUM, frames=1))
assert refused("BadKind", lambda: fkv.Store(99))
assert refused("BadKind", lambda: fkv.Store(5))
with fkv.Store(fkv.COUNT) as store:
    assert refused("OutOfRange", lambda: store.__setitem__("apples", -1))
with fkv.Store(fkv.MAX) as store:
    assert refused("OutOfRange", lambda: store.__setitem__("apples", 1 << 63))
with fkv.Store(fkv.CAPPED_SUM) as store:
    assert refused("NoMerge", lambda: store.merge("apples", 1))
with fkv.Store(fkv.SUM) as store:
    assert refused("BadKey", lambda: store.rmw("", 1))
    assert refused("BadKey", lambda: store.rmw("x" * 32, 1))
    try:
        store["none"]
        raise AssertionError("a name that has no value")
    except KeyError:
        pass
    store.rmw("apples", 5)
    first, second = iter(store), iter(store)
    assert (next(first), next(second)) == ("apples", "apples")
    assert list(first) == list(second) == []
assert refused("Closed", lambda: store.rmw("apples", 5))
store.close()
print("140,000 random operations agree with a dict")
