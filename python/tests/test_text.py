"""The text of a sheet: what it looks like, what may be written in it, and which line a fault is in."""

import numpy as np
import pytest

from hullashlar import Surface
from hullashlar.sheets import read
from hullashlar.text import TextFault, sheet_of_text, tensor_of_text, text_of_file, text_of_sheet

TWO_AXES = """\
edition 2

axis 0
ends natural
outside hold
knots 0.0 1.0

axis 1
lower first-derivative 1.0
upper second-derivative -0.0
outside refuse
knots 0.0 1.0 2.0

samples
# 0.0  1.0    2.0
  0.0  1.0    2.0  # 0.0
  0.0  0.1  1e-05  # 1.0
"""

THREE_AXES = """\
edition 1

axis 0
ends periodic
outside extend
knots 0.0 1.0

axis 1
ends clamped
outside extend
knots 0.0 1.0

axis 2
lower not-a-knot
upper second-derivative 0.0
outside extend
knots 0.0 1.0 3.0

samples

slice 0  # axis 0 at 0.0
# 0.0  1.0  3.0
  0.0  1.0  2.0  # 0.0
  3.0  4.0  5.0  # 1.0

slice 1  # axis 0 at 1.0
# 0.0  1.0   3.0
  6.0  7.0   8.0  # 0.0
  9.0  8.0  -0.0  # 1.0
"""


@pytest.mark.parametrize("text", [TWO_AXES, THREE_AXES])
def test_the_text_of_a_sheet(text):
    assert text_of_sheet(read(sheet_of_text(text))) == text


def test_one_axis_has_a_sample_a_row_and_many_knots_go_on_in_the_next_line():
    surface = Surface([np.arange(60.0)], np.arange(60.0), "natural")
    text = text_of_sheet(read(surface.write()))
    assert "\nknots 0.0 1.0 " in text and "\n      " in text
    assert "  59.0  # 59.0\n" in text and max(map(len, text.splitlines())) <= 100
    assert sheet_of_text(text) == surface.write()


def test_four_axes_have_slices_of_two_numbers():
    surface = Surface([[0.0, 1.0]] * 4, np.arange(16.0).reshape((2,) * 4), "natural")
    text = text_of_sheet(read(surface.write()))
    assert "slice 1 0  # axis 0 at 1.0, axis 1 at 0.0\n" in text
    assert sheet_of_text(text) == surface.write()


def test_what_an_editor_may_do():
    edited = TWO_AXES.replace("0.0 1.0 2.0\n\nsamples", "0.0 # zero\n 1 2e0\n\n\nsamples").replace("edition", "# mine\n\n  edition")
    assert sheet_of_text(edited) == sheet_of_text(TWO_AXES)


def test_what_editors_put_into_a_file(tmp_path):
    path = tmp_path / "edited.txt"
    edited = TWO_AXES.replace("samples", "# a page\x0c, a break\u2028 and \x85\nsamples").replace("\n", "\r\n")
    path.write_bytes(b"\xef\xbb\xbf" + edited.encode())
    assert sheet_of_text(text_of_file(path)) == sheet_of_text(TWO_AXES)


def test_a_file_that_is_no_text_names_its_line(tmp_path):
    path = tmp_path / "edited.txt"
    path.write_bytes(TWO_AXES.encode().replace(b"ends natural", b"ends natural # \xff"))
    with pytest.raises(TextFault, match="^line 4: this is no text in UTF-8$"):
        text_of_file(path)


def swapped(old, new):
    assert old in TWO_AXES
    return TWO_AXES.replace(old, new, 1)


@pytest.mark.parametrize(
    "text, line, words",
    [
        ("", 1, "edition should stand here, and not the end of the text"),
        ("# nothing\n\n", 3, "the end of the text"),
        ("axis 0\n", 1, "edition should stand here, and not 'axis'"),
        ("edition two\n", 1, "one whole number should stand here"),
        (swapped("edition 2", "edition 3"), 1, "refused 12 (edition)"),
        (swapped("edition 2", "edition 1"), 5, "refused 23 (lost)"),
        (swapped("axis 1", "axis 2"), 8, "axis 1 should stand here"),
        (swapped("ends natural", "ends second-derivative 0.0"), 4, "behind ends stands one of"),
        (swapped("ends natural", "ends natrual"), 4, "an end is one of"),
        (swapped("ends natural", "outside hold"), 4, "ends or lower should stand here"),
        (swapped("first-derivative 1.0", "first-derivative"), 9, "an end is one of"),
        (swapped("first-derivative 1.0", "first-derivative nan"), 9, "refused 7 (number)"),
        (swapped("lower first-derivative 1.0", "lower periodic"), 9, "refused 13 (kinds)"),
        (swapped("ends natural", "ends not-a-knot"), 4, "refused 9 (fewness)"),
        (swapped("outside hold", "outside clamp"), 5, "behind outside stands one of extend, hold, refuse"),
        (swapped("knots 0.0 1.0\n", "knots 0.0\n"), 17, "the text should end here"),
        (swapped("knots 0.0 1.0\n", "knots 1.0\n 1.0\n"), 7, "refused 8 (knots)"),
        (swapped("knots 0.0 1.0\n", "knots -1e308 1e308\n"), 6, "refused 8 (knots)"),
        (swapped("knots 0.0 1.0\n", "knots 0.0 one\n"), 6, "'one' is no number"),
        (swapped("0.1", "inf"), 17, "refused 7 (number)"),
        (swapped("0.0  0.1", "x  0.1"), 17, "'x' is no number"),
        (swapped("0.0  0.1", "1_5  0.1"), 17, "'1_5' is no number"),
        (swapped("0.0  0.1", "\u0661  0.1"), 17, "'\u0661' is no number"),
        (swapped("edition 2", "edition \u0662"), 1, "one whole number should stand here"),
        (swapped("0.0  0.1", "0.1"), 17, "3 samples should stand in a row, and not 2"),
        (swapped("  0.0  0.1  1e-05  # 1.0\n", ""), 17, "2 rows of samples should stand here, and there are 1"),
        (TWO_AXES + "slice 0\n", 18, "the text should end here, and 'slice' stands"),
        (THREE_AXES.replace("slice 1", "slice 0"), 26, "slice 1 should stand here"),
        ("edition 1\nsamples\n", 2, "refused 1 (axes)"),
    ],
)
def test_a_fault_names_its_line(text, line, words):
    with pytest.raises(TextFault) as caught:
        sheet_of_text(text)
    assert caught.value.line == line
    assert words in str(caught.value) and str(caught.value).startswith(f"line {line}: ")


def one_point():
    return "edition 1\naxis 0\nends natural\noutside extend\nknots 0.0\nsamples\n1.0\n"


def too_large():
    knots = " ".join(map(str, range(33)))
    axis = "axis {}\nends natural\noutside extend\nknots " + knots + "\n"
    return "edition 1\n" + axis.format(0) + axis.format(1) + "samples\n" + ("0 " * 33 + "\n") * 33


def five_axes():
    axis = "axis {}\nends natural\noutside extend\nknots 0 1\n"
    return "edition 1\n" + "".join(axis.format(number) for number in range(5)) + "samples\n"


@pytest.mark.parametrize("text, line, number", [(one_point(), 5, 2), (too_large(), 10, 3), (five_axes(), 18, 1)])
def test_refused_sizes_name_their_line(text, line, number):
    with pytest.raises(TextFault, match=rf"line {line}: refused {number} "):
        sheet_of_text(text)


def test_a_tensor_of_too_few_rows():
    text = TWO_AXES.split("samples")[0] + "tensor\n0 0 0 0\n"
    with pytest.raises(TextFault, match="line 16: 6 rows of numbers should stand here, and there are 1"):
        tensor_of_text(text)
