"""Four worker processes of Dask name ten million clients, and let the proved program look at the names."""

import dask
import dask.dataframe as dd
import numpy as np
import pandas as pd
from distributed import Client, LocalCluster

import renamer.dask

PARTS, EACH = 80, 125_000


def part(at: int) -> pd.DataFrame:
    """A partition of random clients, the same each time that it is computed."""
    return pd.DataFrame({"client": np.random.default_rng(at).integers(0, 2**64, EACH, dtype=np.uint64)})


def main() -> None:
    with LocalCluster(n_workers=4, threads_per_worker=1, dashboard_address=None) as cluster, Client(cluster):
        frame = dd.from_delayed([dask.delayed(part)(at) for at in range(PARTS)], meta=part(0))
        named = renamer.dask.number(frame, "client").persist()
        print(f"{renamer.dask.check(named)} clients have the names from 0 on, each once")


if __name__ == "__main__":
    main()
