import os
import pickle
import re
import subprocess
import sys

import numpy as np
import pytest

import renamer
from renamer._arrays import as_clients
from renamer._parts import count_off
from renamer._program import run_part


@pytest.mark.parametrize("clients", [0, 1, 2, 63, 64, 65, 262_143, 262_144, 262_145, 600_000])
def test_any_number_of_clients(clients):
    assert (count_off(clients) == np.arange(clients)).all()
    assert renamer.check(renamer.number(np.arange(clients))) == clients


def test_duplicates_are_found():
    for clients in ([7, 5, 7], ["b", "a", "b"], [b"b", b"a", b"b"], np.array([2**64 - 1, 1, 2**64 - 1], np.uint64)):
        with pytest.raises(renamer.Duplicate) as found:
            renamer.number(clients)
        assert pickle.loads(pickle.dumps(found.value)).client == clients[0]
        assert renamer.number(clients, share=True).tolist() == [1, 0, 1]
    days = np.array(["2026-11-29", "2026-11-28"], "datetime64[D]")
    with pytest.raises(renamer.Duplicate, match="^client b stands twice in epoch 2026-11-28$"):
        renamer.name_part(["b", "b", "b"], days[[0, 1, 1]])


def test_identities_that_differ_stay_apart():
    """numpy makes floats of the first list, and of the second texts without their last zero byte."""
    for clients in ([2**63, 0, 2**63 + 1], [b"a", b"a\0"], [2**53, 2**53 + 1], [2**70, -1], ["a", "a\0"]):
        assert sorted(renamer.number(clients, share=True)) == list(range(len(clients)))
        assert renamer.number(clients).tolist() == list(range(len(clients)))


def test_values_in_the_order_of_their_names():
    names, values = renamer.number(["b", "a", "b"], share=True, return_values=True)
    assert names.tolist() == [1, 0, 1] and values.tolist() == ["a", "b"]
    clients = np.array([9, 2, 5], np.uint16)
    names, values = renamer.number(clients, return_values=True)
    assert names.tolist() == [0, 1, 2] and values.tolist() == [9, 2, 5]
    assert values.dtype == np.uint16 and not np.shares_memory(values, clients)


def test_what_is_no_row_of_one_kind_is_refused():
    dates = np.array(["2026-11-29", "NaT"], "datetime64[s]")
    for wrong in ([1.0], np.array([1.0]), [[1]], 1, [1, "1"], ["a", None], [None], ["a", float("nan")], dates):
        with pytest.raises(TypeError):
            renamer.number(wrong)
        with pytest.raises(TypeError):
            renamer.name_part([1], wrong)
    for wrong, said in (({1, 2}, "not one set"), ([[1], [2]], "not 2 dimensions"), (np.float64(1), "not one float64")):
        with pytest.raises(TypeError, match=said):
            renamer.number(wrong)
    with pytest.raises(ValueError, match="2 clients, but 1 epochs"):
        renamer.name_part([1, 2], [1])


def test_series():
    pandas = pytest.importorskip("pandas")
    texts = pandas.Series(["b", "a", "b"], index=[9, 9, 1])
    for series in (texts, texts.astype("string"), texts.astype("category"), pandas.Series([7, 5, 7], dtype="Int64")):
        assert renamer.number(series, share=True).tolist() == [1, 0, 1]
    with pytest.raises(TypeError):
        renamer.number(pandas.Series([7, None], dtype="Int64"))
    clients = pandas.Series([2**64 - 1, 0], dtype="uint64")
    assert np.shares_memory(as_clients(clients), clients.to_numpy())
    assert renamer.run(clients).tolist() == renamer.number(clients).tolist() == [0, 1]


def test_what_numpy_makes_an_array_of():
    """As a Series of polars, of which numpy makes an array of objects if it has texts."""

    class Series:
        def __init__(self, *values):
            self.values = values

        def __array__(self, *_, **__):
            return np.array(self.values, object if isinstance(self.values[0], str) else None)

    assert renamer.number(Series("b", "a", "b"), share=True).tolist() == [1, 0, 1]
    assert renamer.number(Series(7, 5)).tolist() == [0, 1]
    for wrong in (Series("b", None), Series(7.0, float("nan"))):
        with pytest.raises(TypeError):
            renamer.number(wrong)


def cut(total, parts, epochs, seed, same):
    """Records at random over parts by the hash of client and epoch, as an engine has them."""
    draw = np.random.default_rng(seed)
    clients, epoch = draw.integers(0, same, total), draw.integers(0, epochs, total)
    place = (clients * 7 + epoch * 13) % parts
    return [(clients[place == p], epoch[place == p]) for p in range(parts)]


@pytest.mark.parametrize("seed", range(40))
def test_parts_are_tight_together(seed):
    draw = np.random.default_rng([seed, 1])
    parts = cut(int(draw.integers(0, 3000)), int(draw.integers(1, 9)), int(draw.integers(1, 40)), seed, 200)
    made = [renamer.name_part(*part, share=True) for part in parts]
    firsts = renamer.first_names([(part.epochs, part.counts) for part in made])
    found = {}
    for (clients, epochs), part, first in zip(parts, made, firsts):
        names = part.names + first[np.searchsorted(part.epochs, epochs)]
        for client, epoch, name in zip(clients.tolist(), epochs.tolist(), names.tolist()):
            assert found.setdefault(epoch, {}).setdefault(client, name) == name
    for named in found.values():
        assert sorted(named.values()) == list(range(len(named)))


def test_a_client_of_two_epochs_has_two_names():
    part = renamer.name_part([5, 5], [8, 9])
    assert part.names.tolist() == [0, 0] and part.epochs.tolist() == [8, 9] and part.counts.tolist() == [1, 1]


def test_parts_of_several_types_are_put_behind_one_another():
    """numpy makes floats of the epochs of the first two parts, and the third has none."""
    epochs = np.array([2**53, 2**53 + 1]), np.array([2**63], np.uint64), np.array([]), np.array([2**53 + 1])
    firsts = renamer.first_names([(some, np.ones(len(some), int)) for some in epochs])
    assert [first.tolist() for first in firsts] == [[0, 0], [0], [], [1]]
    dates = np.array(["2026-11-29"], "M8[D]"), np.array([]), np.array(["2026-11-29"], "M8[D]")
    firsts = renamer.first_names([(some, np.ones(len(some), int)) for some in dates])
    assert [first.tolist() for first in firsts] == [[0], [], [1]]
    assert [first.tolist() for first in renamer.first_names([(np.array([]), np.array([], int))])] == [[]]


def test_names_hang_on_no_order():
    clients = np.random.default_rng(1).permutation(10_000)
    first = renamer.name_part(clients).names
    again = np.random.default_rng(2).permutation(10_000)
    assert (first[again] == renamer.name_part(clients[again]).names).all()


def test_check_finds_what_is_not_tight():
    most = 1_048_576
    assert renamer.check([]) == renamer.check(np.array([])) == 0
    assert renamer.check(np.random.default_rng(1).permutation(most + 5)) == most + 5
    full = np.arange(most)
    largest = full.astype(np.uint64) + np.uint64(2**64 - most)
    for names in ([0, 2], [0, 0], [1], [*full[:-1], most], [*full, most - 1], [*full, most + 1], largest):
        with pytest.raises(renamer.NotTight):
            renamer.check(names)
    for names, clients, said in (
        ([0, 1, 3], None, "of 3 names, which should be those from 0 on, none is 2"),
        ([0, 1, 4, 1, 1], None, "name 1 stands twice, at the places 1 and 3"),
        ([0, 2, 1], [7, 5, 7], "client 7 stands twice, at the places 0 and 2"),
        ([0, -1], None, "these are not 0 to k-1: -1 is not a number from 0 to 2**64 - 1"),
        ([2**64], None, f"these are not 0 to k-1: {2**64} is not a number from 0 to 2**64 - 1"),
    ):
        with pytest.raises(renamer.NotTight, match=f"^{re.escape(said)}$"):
            renamer.check(names, clients)
    for wrong in ([0.0], [[0]], ["a"], [True]):
        with pytest.raises(TypeError):
            renamer.check(wrong)
    with pytest.raises(ValueError, match="1 names, but 2 clients"):
        renamer.check([0], [1, 2])


def test_the_program_names_a_batch():
    draw = np.random.default_rng(5)
    clients, epochs = draw.integers(0, 2**64, 3000, dtype=np.uint64), draw.integers(0, 9, 3000)
    names = renamer.run(clients, epochs)
    for epoch in range(9):
        assert (names[epochs == epoch] == np.arange((epochs == epoch).sum())).all()
    assert renamer.run([]).tolist() == [] and renamer.run([7, 5]).tolist() == [0, 1]
    with pytest.raises(OverflowError):
        renamer.run([-1])
    with pytest.raises(TypeError, match="^whole numbers from 0 to 2.* are wanted, and not str$"):
        renamer.run(["a"])
    with pytest.raises(ValueError, match="2 clients, but 1 epochs"):
        renamer.run([1, 2], [1])


def test_a_batch_has_no_bound():
    """One epoch of more than 262,144 clients, and more than 1,048,576 of them."""
    clients = np.random.default_rng(6).permutation(1_100_000)
    assert (renamer.run(clients) == np.arange(len(clients))).all()
    with pytest.raises(renamer.Refusal, match="^client 17 stands twice, at the places .* and 1100000$"):
        renamer.run([*clients.tolist(), 17])
    with pytest.raises(renamer.Refusal, match="^client 7 stands twice, at the places 0 and 1$"):
        renamer.run([7, 7, *clients.tolist()])


@pytest.mark.parametrize("seed", range(20))
def test_a_refusal_names_the_client_and_both_places(seed):
    draw = np.random.default_rng([seed, 3])
    clients, epochs = draw.integers(0, 60, 40), draw.integers(0, 4, 40)
    pairs, said = list(zip(clients.tolist(), epochs.tolist())), None
    # The first, in the order of epochs, that stands there already.
    for at in sorted(range(40), key=lambda place: pairs[place][1]):
        first = pairs.index(pairs[at])
        if first != at:
            said = "client {} stands twice in epoch {}".format(*pairs[at]) + f", at the places {first} and {at}"
            break
    if said is None:
        assert len(renamer.run(clients, epochs)) == 40
    else:
        with pytest.raises(renamer.Refusal, match=f"^{said}$") as found:
            renamer.run(clients, epochs)
        assert str(pickle.loads(pickle.dumps(found.value))) == said
    with pytest.raises(renamer.Refusal, match="^client 7 stands twice, at the places 0 and 2$"):
        renamer.run([7, 5, 7])


def test_a_part_is_the_same_by_library_and_program():
    draw = np.random.default_rng(6)
    clients, epochs = draw.permutation(3000), draw.integers(2**60, 2**60 + 9, 3000)
    for one, other in zip(renamer.name_part(clients, epochs), run_part(clients, epochs)):
        assert one.dtype == other.dtype and (one == other).all()


def test_without_a_program(tmp_path):
    words, alone = [sys.executable, "-m", "renamer", "--version"], {**os.environ, "PATH": str(tmp_path)}
    ran = subprocess.run(words, capture_output=True, text=True, env=alone)
    assert ran.returncode == 70 and ran.stdout == "" and ran.stderr.count("\n") == 1


def test_the_program_runs():
    ran = subprocess.run([sys.executable, "-m", "renamer", "--version"], capture_output=True, text=True)
    assert ran.stdout == f"renamer {renamer.__version__}\n" and ran.returncode == 0
    ran = subprocess.run([sys.executable, "-m", "renamer", "run", "--width", "3"], capture_output=True)
    assert ran.returncode == 2
