import concurrent.futures
import copy
import os

import numpy as np
import pytest

import renamer

NETWORKS = [("bitonic", 8), ("periodic", 4), ("tree", 2), ("tree", 64)]


@pytest.mark.parametrize("network, width", NETWORKS)
@pytest.mark.parametrize("apart", [False, True])
def test_threads_take_each_name_once(network, width, apart):
    first = renamer.Taker(network, width, apart=apart)
    takers = [first, *(first.split() for _ in range(7))]

    def take(taker):
        return [*(taker.take() for _ in range(50)), *taker.take_many(150).tolist()]

    with concurrent.futures.ThreadPoolExecutor(8) as pool:
        names = sorted(name for some in pool.map(take, takers) for name in some)
    assert names == list(range(1600))
    assert first.begun == 1600


def test_any_entry_will_do_and_no_list_takes_none():
    with renamer.Taker("bitonic", 4) as taker:
        assert sorted(taker.take(entry) for entry in range(4)) == [0, 1, 2, 3]
        none = taker.take_many(0, 3)
        assert none.dtype == np.uint64 and len(none) == 0


def test_refusals():
    with pytest.raises(ValueError):
        renamer.Taker("ring", 4)
    with pytest.raises(renamer.NoSuchNetwork):
        renamer.Taker("tree", 3)
    taker = renamer.Taker("tree", 4)
    for call in (lambda: taker.take(1), lambda: taker.take_many(5, 1)):
        with pytest.raises(renamer.NoSuchEntry):
            call()
    for call in (lambda: taker.take(-1), lambda: taker.take_many(-1), lambda: taker.take_many(2**64)):
        with pytest.raises(OverflowError):
            call()
    for count in (2**63, 2**60):
        with pytest.raises(renamer.NoMemory):
            taker.take_many(count)
    assert repr(taker) == "<renamer.Taker tree 4, 0 takes begun>"
    with pytest.raises(TypeError):
        copy.copy(taker)
    assert taker.take() == 0
    taker.free()
    taker.free()
    assert repr(taker) == "<renamer.Taker tree 4, freed>"
    for call in (taker.take, taker.split, lambda: taker.take_many(1), lambda: taker.begun):
        with pytest.raises(renamer.WasFreed):
            call()


def test_a_fork_takes_the_takers_away():
    taker = renamer.Taker()
    child = os.fork()
    if child == 0:
        try:
            taker.take()
        except renamer.WasFreed:
            os._exit(0)
        os._exit(1)
    assert os.waitstatus_to_exitcode(os.waitpid(child, 0)[1]) == 0
    assert taker.take() == 0
