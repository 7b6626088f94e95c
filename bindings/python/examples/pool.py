"""Sixteen threads name 100 clients each, at once. The status is 0 only if each client holds its own name."""

import concurrent.futures

import renamer

THREADS, EACH = 16, 100


def main() -> bool:
    named: dict[int, int] = {}
    with renamer.Floor("tree", 8, quota=THREADS * EACH) as floor:

        def name_some(first: int) -> dict[int, int]:
            with floor.lane(EACH) as lane:
                return {lane.name(client): client for client in range(first, first + EACH)}

        with concurrent.futures.ThreadPoolExecutor(THREADS) as pool:
            for some in pool.map(name_some, range(0, 1000 * THREADS, 1000)):
                named |= some
        holders = floor.close().holders.tolist()
    print(f"{len(holders)} clients have the names 0 to {len(holders) - 1}")
    return named != dict(enumerate(holders))


if __name__ == "__main__":
    raise SystemExit(main())
