#!/usr/bin/env python3
"""Makes feeds of random rows, the same for the same words. The other scripts of this folder take theirs from here.

    bench/generator.py ROWS KEYS LAW SEED     prints so many rows, whose keys are drawn from so many by a law: uniform or zipf
"""

import functools
import math
import random
import sys

LAWS = ("uniform", "zipf")
SEED = 20260101


@functools.lru_cache(maxsize=1)
def names_of(keys):
    """So many keys of eight bytes, in an order that does not follow their bytes."""
    names = [f"k{number:07d}" for number in range(keys)]
    random.Random(SEED).shuffle(names)
    return names


def rows_of(rows, keys, law, seed):
    """So many rows, whose keys are drawn each alike, or the key of rank r with a share of about 1/r."""
    drawn, names, scale = random.Random(seed), names_of(keys), math.log(keys + 1)
    for _ in range(rows):
        if law == "uniform":
            rank = int(drawn.random() * keys)
        else:
            # rank r, counted from 1, has log(1 + 1/r) / log(keys + 1), which is about 1/r
            rank = min(int(math.exp(drawn.random() * scale)), keys) - 1
        yield f"{names[rank]},{int(drawn.random() * 2001) - 1000}\n"


def kept_feed(folder, rows, keys, law, number=""):
    """The path of a feed that is kept in the folder for later calls, and made where it is not there."""
    words = f"{rows} {keys} {law} {number}".rstrip()
    path = folder / f"{words.replace(' ', '_')}.csv"
    if not path.exists():
        folder.mkdir(exist_ok=True)
        part = path.with_suffix(".part")
        with part.open("w") as out:
            out.writelines(rows_of(rows, keys, law, f"{SEED} {words}"))
        part.rename(path)
    return path


def main():
    if len(sys.argv) != 5 or sys.argv[3] not in LAWS:
        sys.exit(__doc__)
    rows, keys, law, seed = sys.argv[1:]
    sys.stdout.writelines(rows_of(int(rows), int(keys), law, seed))


if __name__ == "__main__":
    main()
