"""What the pages show, and the package's own first lines."""

import doctest
import pathlib
import pickle
import pydoc
import traceback
import types
import typing

import pytest

import renamer

PAGES = pathlib.Path(__file__).resolve().parents[1]


@pytest.mark.filterwarnings("ignore")
@pytest.mark.parametrize("page, needed", [("README.md", "pandas"), ("ENGINES.md", "distributed")])
def test_a_page(page, needed):
    pytest.importorskip(needed)
    failed, tried = doctest.testfile(str(PAGES / page), module_relative=False)
    assert tried and not failed


def test_the_first_lines_of_the_package():
    failed, tried = doctest.testmod(renamer)
    assert tried and not failed


def test_public_names_are_shown_as_users_call_them():
    public = [getattr(renamer, name) for name in renamer.__all__]
    public = [found for found in public if isinstance(found, (type, types.FunctionType))]
    assert {found.__module__ for found in public} == {"renamer"}
    assert pickle.loads(pickle.dumps(public)) == public
    hints = {found.__name__: typing.get_type_hints(found) for found in public}
    assert hints["Part"]["names"] == hints["first_names"]["return"].__args__[0]
    assert hints["Quiet"]["holders"] == typing.get_type_hints(renamer.Lane.name_many)["return"]
    shown = traceback.format_exception_only(renamer.Duplicate(7, 1))
    assert shown == ["renamer.Duplicate: client 7 stands twice in epoch 1\n"]
    assert {name for name in dir(renamer) if name[0] != "_"} - {"dask", "mpi"} == set(renamer.__all__)


def test_help_begins_with_what_a_call_does():
    shown = pydoc.plain(pydoc.render_doc(renamer.number)).splitlines()
    assert shown[2].startswith("number(clients: ") and shown[3].startswith("    Names 0 to k-1 for the k clients")
