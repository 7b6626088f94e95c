"""By Dask's own scheduler in this process, and by three worker processes that are killed."""

import os
import signal
import threading
import time

import numpy as np
import pytest

import renamer

dask = pytest.importorskip("dask")
distributed = pytest.importorskip("distributed")
dd = pytest.importorskip("dask.dataframe")
pd = pytest.importorskip("pandas")
import renamer.dask  # noqa: E402

pytestmark = pytest.mark.filterwarnings("ignore")
TOTAL, PARTS = 40_000, 8


def by_value():
    """A function that goes to the workers as it is: they cannot import this module, and would drop out one after
    another without an error here."""

    def source(at, order):
        """A partition by its number; its records come in another order each time if order is none."""
        draw = np.random.default_rng(at)
        clients = draw.integers(0, 2**64, TOTAL // PARTS, dtype=np.uint64)
        found = pd.DataFrame({"client": clients, "day": draw.integers(0, 5, TOTAL // PARTS)})
        return found.iloc[np.random.default_rng(order).permutation(len(found))]

    return source


source = by_value()


def frame(order=None, change=source):
    parts = [dask.delayed(change, pure=False)(at, order) for at in range(PARTS)]
    return dd.from_delayed(parts, meta=change(0, 1))


def here(lazy):
    return lazy.compute(scheduler="sync")


@pytest.fixture(scope="module")
def client():
    # On a busy machine a killed worker is back later than after the 15 s for which a cluster waits before it drops it.
    patient = {"distributed.scheduler.allowed-failures": 20, "distributed.deploy.lost-worker-timeout": "600s"}
    with dask.config.set(patient):
        with distributed.LocalCluster(n_workers=3, threads_per_worker=1, dashboard_address=None) as cluster:
            with distributed.Client(cluster) as made:
                yield made


def test_names_are_tight_and_hang_on_no_order():
    first = here(renamer.dask.number(frame(), "client"))
    again = here(renamer.dask.number(frame(), "client", proved=True))
    assert sorted(first["name"]) == list(range(TOTAL))
    assert dict(zip(first["client"], first["name"])) == dict(zip(again["client"], again["name"]))
    assert sorted(first["client"]) == sorted(here(frame())["client"])


@pytest.mark.parametrize("whole", [False, True])
@pytest.mark.parametrize("proved", [False, True])
def test_each_epoch_has_its_own_names(whole, proved):
    named = renamer.dask.number(frame(), "client", epoch="day", whole=whole, proved=proved, name="number")
    for _, day in here(named).groupby("day"):
        assert sorted(day["number"]) == list(range(len(day)))


def test_texts_in_epochs_of_dates():
    def texts(at, order):
        found = source(at, order)
        day = pd.Timestamp("2026-11-29") + pd.to_timedelta(found["day"], unit="D")
        return pd.DataFrame({"client": found["client"].astype(str), "day": day})

    for _, day in here(renamer.dask.number(frame(change=texts), "client", epoch="day")).groupby("day"):
        assert sorted(day["name"]) == list(range(len(day)))


def test_a_duplicate_is_found_in_other_partitions():
    def twice(at, order):
        return pd.DataFrame({"client": np.array([at, 77 if at in (1, 6) else 100 + at], np.uint64), "day": [0, at]})

    with pytest.raises(renamer.Duplicate, match="77"):
        here(renamer.dask.number(frame(1, twice), "client"))
    with pytest.raises(renamer.Refusal, match="^client 77 stands twice, at the places . and .$"):
        here(renamer.dask.number(frame(1, twice), "client", proved=True))
    assert len(here(renamer.dask.number(frame(1, twice), "client", epoch="day"))) == 2 * PARTS
    shared = here(renamer.dask.number(frame(1, twice), "client", share=True))
    assert shared.groupby("client")["name"].nunique().max() == 1 and set(shared["name"]) == set(range(2 * PARTS - 1))


def test_empty_partitions():
    few = dd.from_pandas(pd.DataFrame({"client": np.array([5, 6], np.uint64)}), npartitions=2)
    for some in (few, few[few.client > 5], few[few.client > 9]):
        found = here(renamer.dask.number(some.repartition(npartitions=7), "client"))
        assert sorted(found["name"]) == list(range(len(found)))


def test_what_cannot_be_is_refused():
    with pytest.raises(ValueError, match="shares no names"):
        renamer.dask.number(frame(), "client", share=True, proved=True)
    with pytest.raises(ValueError, match="has a column 'day' already"):
        renamer.dask.number(frame(), "client", name="day")
    said = "there is no column 'cleint': the columns are 'client', 'day'"
    for wrong in (
        lambda: renamer.dask.number(frame(), "cleint"),
        lambda: renamer.dask.number(frame(), "client", epoch="cleint"),
        lambda: renamer.dask.number(frame(), "cleint", epoch="day", whole=True),
        lambda: renamer.dask.check(frame(), "cleint"),
    ):
        with pytest.raises(KeyError) as found:
            wrong()
        assert found.value.args == (said,)
    part = pd.DataFrame({"client": [1], "name": [0]})
    named, client = part["name"], frame()["client"]
    for wrong, given in ((part, "pandas.DataFrame"), (named, "pandas.Series"), (client, "dask.Series")):
        for call in (lambda: renamer.dask.number(wrong, "client"), lambda: renamer.dask.check(wrong)):
            with pytest.raises(TypeError, match=f"a data frame of Dask is wanted, .*, and not {given}"):
                call()


def test_a_partition_that_changed_is_an_error():
    made = renamer.name_part([1, 2, 3])
    part = pd.DataFrame({"name": made.names}), made.epochs, made.counts
    place = renamer.dask._places([(made.epochs, np.array([2]))])[0]
    with pytest.raises(RuntimeError, match="computed again"):
        renamer.dask._placed(part, place, None, "name")


def test_later_versions_have_another_word_for_how_to_shuffle():
    class Later:
        def shuffle(self, on, npartitions, shuffle_method):
            return on, npartitions, shuffle_method

    assert renamer.dask._shuffled(Later(), ["a"], 3) == (["a"], 3, "tasks")


def test_a_duplicate_comes_over_processes(client):
    part = pd.DataFrame({"client": [1, 2, 3, 2]})
    with pytest.raises(renamer.Duplicate) as found:
        renamer.dask.number(dd.from_pandas(part, npartitions=2), "client").compute()
    assert found.value.client == 2


def test_workers_are_killed(client):
    def slow(at, order):
        time.sleep(0.3)
        return source(at, order)

    want = here(renamer.dask.number(frame(), "client"))
    future = client.compute(renamer.dask.number(frame(change=slow), "client"))
    killed = set()

    def kill():
        for turn in range(3):
            time.sleep(0.6)
            pid = list(client.cluster.workers.values())[turn].pid
            if pid and not future.done():
                os.kill(pid, signal.SIGKILL)
                killed.add(pid)

    killer = threading.Thread(target=kill)
    killer.start()
    found = future.result(300)
    killer.join()
    assert dict(zip(found["client"], found["name"])) == dict(zip(want["client"], want["name"]))
    assert sorted(found["name"]) == list(range(TOTAL)) and killed


def test_check_by_the_program(client):
    named = renamer.dask.number(frame(), "client").persist()
    assert renamer.dask.check(named) == TOTAL
    with pytest.raises(renamer.NotTight):
        renamer.dask.check(named[named.name != 17])
    with pytest.raises(renamer.NotTight):
        renamer.dask.check(dd.concat([named, named.partitions[0]]))


@pytest.mark.parametrize("name", ["name", "block", "epoch", "a b"])
def test_check_of_a_column_of_any_name(name):
    names = pd.DataFrame({"block": 0, name: np.random.default_rng(1).permutation(95)})
    with dask.config.set(scheduler="sync"):
        assert renamer.dask.check(dd.from_pandas(names, npartitions=4), name) == 95
        assert renamer.dask.check(dd.from_pandas(names[:0], npartitions=1), name) == 0
        for left in (names[name] != 39, names[name] > 9):
            with pytest.raises(renamer.NotTight):
                renamer.dask.check(dd.from_pandas(names[left], npartitions=4), name)
        with pytest.raises(renamer.NotTight, match="none is 0"):
            renamer.dask.check(dd.from_pandas(pd.DataFrame({name: [5]}), npartitions=1), name)
