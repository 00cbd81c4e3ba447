"""The declared calls, sizes and refusals are those of include/hullashlar.h, and the loops those of python/point_by_point.c."""

import ctypes
import re

import pytest

from hullashlar import _calls
from hullashlar.refusals import REFUSALS

TYPES = {
    "size_t": ctypes.c_uint64,
    "uint64_t": ctypes.c_uint64,
    "uint8_t": ctypes.c_uint8,
    "int32_t": ctypes.c_int32,
    "double": ctypes.c_double,
}


# What each kind of pointer is an array of.
ELEMENTS = {"double": "float64", "size_t": "uint64", "uint64_t": "uint64", "uint8_t": "uint8", "int32_t": "int32", "uint32_t": "uint32"}


def uncommented(path):
    return re.sub(r"/\*.*?\*/", "", path.read_text(encoding="utf-8"), flags=re.DOTALL)


@pytest.fixture(scope="module")
def header(root):
    return uncommented(root / "include" / "hullashlar.h")


@pytest.fixture(scope="module")
def functions(root, header):
    """The name and the parameters of every function that the shared library has."""
    texts = header + uncommented(root / "python" / "point_by_point.c")
    return dict(re.findall(r"^(?:size_t|uint64_t) (\w+)\((.*?)\)(?:;|\n\{)", texts, flags=re.DOTALL | re.MULTILINE))


def declared():
    """Every call of the package, by its name in C."""
    calls = [call for call in vars(_calls).values() if isinstance(call, _calls.Call)]
    return {call._function.__name__: call for call in calls}


def parameter_type(parameter):
    return ctypes.c_void_p if "*" in parameter else TYPES[parameter.split()[0]]


def test_every_call_is_declared_as_c_has_it(functions):
    calls = declared()
    assert set(calls) == set(functions)
    for name, parameters in functions.items():
        types = [parameter_type(parameter) for parameter in parameters.split(",")]
        assert calls[name]._function.argtypes == types, name


def test_every_element_is_of_c_s_type(functions):
    calls = declared()
    for name, parameters in functions.items():
        pointed = re.findall(r"(\w+) \*", parameters)
        slices = [part for part in calls[name]._parameters if isinstance(part, _calls.Slice)]
        assert [part.dtype.__name__ for part in slices] == [ELEMENTS[word] for word in pointed], name


def test_the_loops_are_the_only_functions_beside_the_header_s(functions):
    assert {name for name in functions if not name.startswith("hullashlar_")} == {"point_by_point_query", "point_by_point_curve"}


def test_sizes(header):
    sizes = dict(re.findall(r"HULLASHLAR_(\w+) = (\d+)", header.split("enum hullashlar_size")[1].split("}")[0]))
    for name in ("AXES", "ENDS", "AXIS_ENDS", "FOUND", "TENSOR", "SCRATCH", "MOST_SCRATCH", "BUFFER", "SHEET"):
        assert getattr(_calls, name) == int(sizes[name]), name


def test_refusals_have_the_header_s_names(header):
    names = re.findall(r"HULLASHLAR_REFUSED_(\w+) = (\d+)", header)
    assert {int(number): name.lower() for name, number in names} == {number: name for number, (name, _) in REFUSALS.items()}


def test_every_refusal_has_one_sentence_that_says_what_to_do():
    for name, sentence in REFUSALS.values():
        assert sentence.endswith(".") and ". " not in sentence, name
        assert sentence.split()[0] in {
            "Give", "Use", "Lend", "Name", "Let", "Fetch", "Make", "Cut", "Ask", "Keep", "Space", "Choose", "Write",
        }, name
