"""What may be a client: each kind that `number` takes, and each that it refuses, against a model that compares by keys
of its own."""

import datetime
import decimal
import enum
import fractions
import uuid

import numpy as np
import pytest

import renamer

NAN, NAT = float("nan"), np.datetime64("NaT")
UTC = datetime.timezone.utc


class Level(enum.IntEnum):
    FIVE = 5


class Upside(str):
    """Texts whose `<` is no order."""

    def __lt__(self, other):
        return len(self) > 1


class Alike(str):
    """Texts that are the same as no other, and not as themselves."""

    def __eq__(self, other):
        return False

    __hash__ = str.__hash__


class Summer(datetime.tzinfo):
    """A zone whose clock shows each hour twice."""

    def utcoffset(self, when):
        return datetime.timedelta(hours=2 - when.fold)

    def dst(self, when):
        return datetime.timedelta(0)


SUMMER = Summer()
NIGHT = datetime.datetime(2026, 10, 25, 2, 30)


def moment(when):
    """The time in UTC that a datetime with a zone means."""
    return when.replace(tzinfo=None, fold=0) - when.utcoffset()


# Objects of a kind, and what says which of them are the same, and which comes first.
KINDS = {
    "numbers": (
        [0, 1, -1, 5, Level.FIVE, np.int8(5), np.uint8(5), np.uint64(5), 2**53, 2**53 + 1, np.int64(2**53), 2**63]
        + [2**63 + 1, np.uint64(2**63), 2**64 - 1, 2**64, 2**70, -(2**63), -(2**70)],
        int,
    ),
    "small numbers": ([1, 2, 3, np.int64(3), -4], int),
    "texts": (["", "a", "a\0", "b", "ab", "A", "é", "e\u0301", "\ud800", "1", "True"], str),
    "texts of numpy": ([np.str_("a"), np.str_("b"), np.str_("c")], str),
    "bytes": ([b"", b"a", b"a\0", b"\xff", b"ab"], bytes),
    "days": ([datetime.date(2026, 11, day) for day in range(1, 6)], datetime.date.toordinal),
    "times": ([NIGHT, NIGHT.replace(microsecond=1), NIGHT.replace(year=1), NIGHT.replace(fold=1)], lambda when: when),
    "moments": (
        [NIGHT.replace(tzinfo=SUMMER), NIGHT.replace(tzinfo=SUMMER, fold=1), NIGHT.replace(hour=0, tzinfo=UTC)]
        + [NIGHT.replace(hour=1, tzinfo=UTC), NIGHT.replace(tzinfo=datetime.timezone(datetime.timedelta(hours=1)))],
        moment,
    ),
    "dates of numpy": ([np.datetime64(f"2026-11-0{day}") for day in range(1, 6)], str),
}
REFUSED = [None, NAN, 1.5, 1j, True, False, np.bool_(True), np.float16(1), np.float32(1.5), np.longdouble(1), NAT]
REFUSED += [decimal.Decimal(1), fractions.Fraction(1, 2), uuid.UUID(int=1), datetime.timedelta(1), datetime.time(1)]
REFUSED += [np.timedelta64(1, "s"), np.timedelta64(1), frozenset([1]), (1, 2), (1,), range(3), object(), int, ...]
REFUSED += [Upside("a"), Alike("a"), np.ma.masked, bytearray(b"a"), np.array([(1, 2)], "i4,i4")[0]]


def objects(values):
    """An array of these objects, whatever they are."""
    row = np.empty(len(values), object)
    for at, value in enumerate(values):
        row[at] = value
    return row


@pytest.mark.parametrize("value", REFUSED, ids=repr)
def test_what_is_no_client_is_refused(value):
    for row in ([value], [value, value], objects([value]), objects([value, value]), objects([5, value, 5])):
        for call in (renamer.number, renamer.run, renamer.check, lambda row: renamer.name_part([1], row)):
            with pytest.raises(TypeError):
                call(row)


def test_a_duplicate_among_objects_without_an_order_is_not_passed():
    """Of sets `<` says which has more, and of texts that say it upside down nothing: sorted, equal ones do not meet."""
    for row in ([frozenset([1]), frozenset([2]), frozenset([1])], [Upside("a"), Upside("bb"), Upside("a")]):
        for share in (False, True):
            with pytest.raises(TypeError):
                renamer.number(row, share=share)
    assert len(renamer.number([np.float64(2**53).astype(int), 2**53 + 1])) == 2
    with pytest.raises(TypeError, match="not float32"):
        renamer.number([np.float32(16777216), np.float32(16777217)])


def test_arrays_that_are_no_clients():
    hidden = np.ma.array([7, 8, 9], mask=[0, 1, 0])
    for row in (hidden, hidden.astype("M8[s]"), np.array([True]), np.array([1], "m8[s]"), np.array([(1, 2)], "i4,i4")):
        with pytest.raises(TypeError):
            renamer.number(row)
    for wrong in ([[1], [2, 3]], [[1], [2]], [np.zeros((2, 3)), np.zeros((2, 4))], [np.array([1]), np.array([2])]):
        with pytest.raises(TypeError):
            renamer.number(wrong)
    with pytest.raises(TypeError, match="a mask hides"):
        renamer.check(hidden - 7)
    with renamer.Floor() as floor, floor.lane() as lane, pytest.raises(TypeError, match="a mask hides"):
        lane.name_many(hidden)
    assert renamer.number(np.ma.array([7, 8, 9], mask=[0, 0, 0])).tolist() == [0, 1, 2]


def test_dates_of_several_units_and_zones():
    days = [np.datetime64("2026-11-29"), np.datetime64("2026-11-29T00")]
    for row in (days, [NIGHT, NIGHT.replace(tzinfo=UTC)], [NIGHT, NIGHT.date()], [NIGHT.date(), days[0]]):
        with pytest.raises(TypeError):
            renamer.number(row)
    same = [NIGHT.replace(tzinfo=SUMMER), NIGHT.replace(hour=0, tzinfo=UTC), NIGHT.replace(tzinfo=SUMMER, fold=1)]
    assert renamer.number(same, share=True).tolist() == [0, 0, 1]
    with pytest.raises(renamer.Duplicate, match="2026-10-25 00:30"):
        renamer.number(same)


@pytest.mark.parametrize("order", ["<", ">"])
@pytest.mark.parametrize("kind", ["i2", "u2", "i8", "u8", "U3", "M8[s]", "M8[D]"])
def test_arrays_of_either_order_of_bytes(kind, order):
    row = np.array([258, 1, 258, 513]).astype("i8").astype(order + kind)
    with pytest.raises(renamer.Duplicate):
        renamer.number(row)
    ranks = np.unique(row, return_inverse=True)[1]
    assert renamer.number(row, share=True).tolist() == ranks.tolist()
    assert renamer.number(row[1:][::-1]).tolist() == [0, 1, 2]


def wanted(values, key, share):
    """The names of these, or none if one stands twice."""
    keys = [key(value) for value in values]
    if share:
        rank = {key: name for name, key in enumerate(sorted(set(keys)))}
        return [rank[key] for key in keys]
    return list(range(len(keys))) if len(set(keys)) == len(keys) else None


@pytest.mark.parametrize("seed", range(300))
def test_random_rows(seed):
    draw = np.random.default_rng([seed, 7])
    values, key = KINDS[list(KINDS)[draw.integers(len(KINDS))]]
    some = [values[at] for at in draw.integers(0, len(values), draw.integers(1, 7))]
    share = bool(draw.integers(2))
    row = [list, tuple, objects][draw.integers(3)](some)
    names = wanted(some, key, share)
    if names is None:
        with pytest.raises(renamer.Duplicate) as found:
            renamer.number(row)
        assert sum(key(value) == key(found.value.client) for value in some) > 1
    else:
        found, clients = renamer.number(row, share=share, return_values=True)
        assert found.dtype == np.int64 and found.tolist() == names
        assert [key(client) for client in clients[found]] == [key(value) for value in some]
        assert len(clients) == len(set(names))
    strangers = [value for other in KINDS.values() if other[1] is not key for value in other[0]] + REFUSED
    mixed = [*some, strangers[draw.integers(len(strangers))]]
    with pytest.raises(TypeError):
        renamer.number([objects(mixed), mixed][seed % 2], share=share)


def test_kinds_of_pandas():
    pandas = pytest.importorskip("pandas")
    stamps = pandas.to_datetime(["2026-11-29 10:00", "2026-11-28", "2026-11-29 10:00"])
    taken = [["b", "a", "b"], [7, 5, 7], [7.0, 5.0, 7.0], [True, False, True], [2.5, 1.5, 2.5]]
    whole = [pandas.Series(taken[1], dtype=kind) for kind in ("Int64", "UInt8", "int32", "category", object, "uint64")]
    texts = [pandas.Series(taken[0], dtype=kind) for kind in ("string", "category", object)]
    times = [stamps, stamps.tz_localize("UTC"), stamps.tz_localize("UTC").astype(object), list(stamps)]
    for row in [*whole, *texts, *times, pandas.Series(times[1]), pandas.Series(taken[1], dtype="Sparse[int64]")]:
        assert renamer.number(row, share=True).tolist() == [1, 0, 1]
        with pytest.raises(renamer.Duplicate):
            renamer.number(row)
    rows = [pandas.Series(taken[at], dtype=kind) for at, kind in ((2, "Float64"), (3, "boolean"), (4, "category"))]
    rows += [pandas.Series([7, None, 7], dtype=kind) for kind in ("Int64", "category", object)]
    rows += [pandas.Series(["b", None], dtype=kind) for kind in ("string", "category", object)]
    rows += [pandas.Series([pandas.NaT]), [pandas.NaT, pandas.NaT], [pandas.NA], [stamps[0], pandas.NaT]]
    rows += [[stamps[0], stamps[0].tz_localize("UTC")], [stamps[0], stamps[0].to_pydatetime()]]
    rows += [pandas.period_range("2026", periods=2, freq="D"), pandas.interval_range(0, 2), stamps - stamps[0]]
    rows += [pandas.MultiIndex.from_tuples([(2.0, 1), (NAN, 1), (1.0, 1), (NAN, 1)]), pandas.DataFrame({"a": [1]})]
    for row in rows:
        with pytest.raises(TypeError):
            renamer.number(row)


def test_rows_without_clients():
    kinds = float, bool, "M8[s]", "m8[s]", "U1", "S1", object, "i4,i4", ">u2"
    for none in ([], (), range(0), *(np.array([], kind) for kind in kinds)):
        assert renamer.check(none) == len(renamer.run(none, none)) == 0
        names, clients = renamer.number(none, return_values=True)
        assert names.dtype == np.int64 and len(names) == len(clients) == 0
        assert renamer.name_part(none, none, share=True).counts.tolist() == []
    for wrong in (np.zeros((0, 2)), np.array(7), "", b"", {}, {1}, None, 7, iter([1])):
        with pytest.raises(TypeError):
            renamer.number(wrong)
