"""Lanes that come back: those that are dropped or interrupted, small ones that threads take anew, and slots."""

import concurrent.futures
import dis
import gc
import itertools
import sys
import threading

import pytest

import renamer


def test_a_lane_that_is_dropped_is_handed_back():
    with renamer.Floor(quota=10) as floor:
        assert floor.lane(4).name(7) == 0
        gc.collect()
        assert floor.lane().quota == 9
        gc.collect()
        assert floor.close().holders.tolist() == [7]


@pytest.mark.filterwarnings("ignore::pytest.PytestUnraisableExceptionWarning")
def test_no_step_at_which_ctrl_c_loses_a_lane():
    """A call that makes a lane, and the end of that lane, are interrupted wherever Python looks for Ctrl-C."""
    with renamer.Floor(quota=5) as floor:
        for way in (lambda: floor.lane(2), lambda: floor.lane(2).hand_back()):
            for at in itertools.count():
                if interrupted(way, at) <= at:
                    break
                assert floor.lane().quota == 5
            assert at > 10
        assert len(floor.close().holders) == 0
    first = renamer.Taker()
    steps = [interrupted(first.split, at) for at in range(50)]
    assert max(steps) > 10 and first.take() == 0
    slots = renamer.Slots(1)
    steps = [interrupted(slots.take, at) for at in range(50)]
    assert max(steps) > 10 and slots.take().number == 0


def interrupted(call, at):
    """Interrupts a call as Ctrl-C does, as a function begins or after a call, and returns how many such places it came
    to."""
    places, after_call = 0, set()

    def trace(frame, event, _):
        nonlocal places
        frame.f_trace_opcodes = True
        if event == "call" or event == "opcode" and id(frame) in after_call:
            after_call.discard(id(frame))
            places += 1
            if places > at:
                raise KeyboardInterrupt
        if event == "opcode" and dis.opname[frame.f_code.co_code[frame.f_lasti]].startswith("CALL"):
            after_call.add(id(frame))
        return trace

    sys.settrace(trace)
    try:
        call()
    except KeyboardInterrupt:
        pass
    finally:
        sys.settrace(None)
    return places


def test_a_floor_names_for_whichever_thread_asks():
    """Of lanes with an equal share each a quarter of the clients here found none."""
    floor = renamer.Floor("tree", 2, 20_000 + 16 * 1024)
    with concurrent.futures.ThreadPoolExecutor(16) as pool:
        names = list(pool.map(floor.name, range(20_000)))
        # The threads are there still, and their lanes go with the floor.
        holders = floor.close().holders
    assert sorted(names) == list(range(20_000))
    assert holders[names].tolist() == list(range(20_000))
    with pytest.raises(renamer.WasFreed):
        floor.name(1)


def test_a_floor_names_as_many_as_its_quota():
    floor = renamer.Floor("tree", 2, 3)
    assert [floor.name(client) for client in (7, 8, 9)] == [0, 1, 2]
    for client in (10, 11):
        with pytest.raises(renamer.QuotaSpent):
            floor.name(client)
    with pytest.raises(renamer.NoSuchEntry):
        renamer.Floor("tree", 2, 3).name(1, entry=1)
    assert floor.close().holders.tolist() == [7, 8, 9]


def test_a_slot_has_one_owner_and_comes_back():
    slots, owners = renamer.Slots(4), [threading.Lock() for _ in range(4)]

    def own(_):
        with slots.take() as slot:
            assert owners[slot.number].acquire(blocking=False)
            owners[slot.number].release()

    with concurrent.futures.ThreadPoolExecutor(4) as pool:
        assert len(list(pool.map(own, range(2000)))) == 2000
    taken = [slots.take() for _ in range(4)]
    assert sorted(slot.number for slot in taken) == [0, 1, 2, 3]
    with pytest.raises(renamer.NothingBack, match="all slots are taken"):
        slots.take()
    number = taken[2].number
    taken[2].free()
    taken[2].free()
    with pytest.raises(renamer.WasFreed):
        taken[2].number
    last = slots.take()
    assert repr(last) == f"<renamer.Slot tree 2, number {number}>" and repr(slots) == "<renamer.Slots 4>"
    del slots
    assert last.number == number


def test_pools_that_there_are_not():
    with pytest.raises(renamer.NoSuchQuota):
        renamer.Slots(262_145)
    with pytest.raises(OverflowError):
        renamer.Slots(-1)
    with pytest.raises(renamer.NothingBack):
        renamer.Slots(0).take()
