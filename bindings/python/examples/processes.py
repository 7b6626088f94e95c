"""An engine of Python's own: four processes name 200,000 clients of three days, in parts. The status is 0 only if each
day has the names from 0 on, each once."""

import concurrent.futures

import numpy as np

import renamer

TOTAL, DAYS, PARTS = 200_000, 3, 16


def main() -> bool:
    draw = np.random.default_rng(1)
    clients, days = draw.integers(0, 2**64, TOTAL, dtype=np.uint64), draw.integers(0, DAYS, TOTAL)
    # The shuffle: by the remainder equal clients meet in one part, which is the places of its records.
    place = (clients % np.uint64(PARTS)).astype(np.int64)
    parts = [np.flatnonzero(place == part) for part in range(PARTS)]
    with concurrent.futures.ProcessPoolExecutor(4) as pool:
        made = list(pool.map(renamer.name_part, [clients[part] for part in parts], [days[part] for part in parts]))
    firsts = renamer.first_names([(part.epochs, part.counts) for part in made])
    names = np.empty(TOTAL, np.int64)
    for part, named, first in zip(parts, made, firsts):
        names[part] = named.names + first[np.searchsorted(named.epochs, days[part])]
    tight = [np.array_equal(np.sort(names[days == day]), np.arange((days == day).sum())) for day in range(DAYS)]
    print(f"{TOTAL} clients of {sum(tight)} days have the names from 0 on, each once")
    return not all(tight)


if __name__ == "__main__":
    raise SystemExit(main())
