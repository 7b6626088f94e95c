"""Workers that come and go, four at once, and fill the rows of one table by name: no two workers get the same row, and
the rows that are filled are the first ones. There is no list of workers, and no end of names. The status is 0 only if
each row was filled once."""

import concurrent.futures
import queue

import renamer

PLACES, WORKERS, SINGLE, TOGETHER = 4, 64, 36, 64


def main() -> bool:
    rows = [0] * (WORKERS * (SINGLE + TOGETHER))
    free: queue.Queue[renamer.Taker] = queue.Queue()
    free.put(first := renamer.Taker("tree", 8))
    for _ in range(PLACES - 1):
        free.put(first.split())

    def fill(_: int) -> None:
        taker = free.get()
        for row in [*(taker.take() for _ in range(SINGLE)), *taker.take_many(TOGETHER).tolist()]:
            rows[row] += 1
        free.put(taker)

    with concurrent.futures.ThreadPoolExecutor(PLACES) as pool:
        list(pool.map(fill, range(WORKERS)))
    print(f"{WORKERS} workers filled the rows 0 to {len(rows) - 1}, each once")
    return rows != [1] * len(rows)


if __name__ == "__main__":
    raise SystemExit(main())
