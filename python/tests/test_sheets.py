"""The sheets and the streams that the programs of the gate are run on."""

import io

import numpy as np
import pytest

from hullashlar import Refused, Report, Surface, sheet_value
from hullashlar.report import report_of_text
from hullashlar.sheets import read
from hullashlar.text import sheet_of_text, text_of_sheet

REPORTS = ["sheet_report", "trial_report_empty", "trial_report_ends_inside", "trial_report_of_refusals"]


def cases(root):
    """The sheets of trial_sheet_cases, each of which stands behind its length in two bytes."""
    stream = io.BytesIO((root / "crates" / "trial_sheet_cases" / "stdin").read_bytes())
    while length := stream.read(2):
        yield stream.read(int.from_bytes(length, "big"))


def accepted(sheet):
    try:
        return Surface.read(sheet)
    except Refused:
        return None


def test_every_accepted_sheet_is_shown_and_packed_again(root):
    sheets = [sheet for sheet in cases(root) if accepted(sheet)]
    sheets.append((root / "crates" / "trial_sheet_largest" / "stdin").read_bytes())
    assert len(sheets) > 10
    for sheet in sheets:
        assert sheet_of_text(text_of_sheet(read(sheet))) == sheet
        surface = Surface.read(sheet)
        assert surface.write(edition=surface.edition) == sheet


def test_a_sheet_with_numbers_that_are_not_finite_is_shown_and_not_packed(root):
    for sheet in cases(root):
        try:
            parts = read(sheet)
        except Refused:
            continue
        numbers = np.concatenate([parts.axes.knots, parts.samples.ravel(), parts.axes.values])
        if not np.isfinite(numbers).all():
            text = text_of_sheet(parts)
            assert "nan" in text or "inf" in text
            with pytest.raises(ValueError, match=r"^line \d+: refused 7 \(number\)"):
                sheet_of_text(text)
            return
    pytest.fail("no such sheet")


def test_the_firmware_s_call_reads_small_sheets_as_a_surface_does(root):
    small = [surface for surface in map(accepted, cases(root)) if surface and surface.tensor.size <= 512]
    assert len(small) > 10
    for surface in small:
        point = [float(row[0] + row[1]) / 2 for row in surface.axes]
        assert sheet_value(surface.write(edition=surface.edition), point) == surface(point)


@pytest.mark.parametrize("crate", REPORTS)
def test_reports(root, crate):
    folder = root / "crates" / crate
    given, printed = (folder / "stdin"), (folder / "stdout").read_text(encoding="utf-8")
    stream = given.read_bytes() if given.exists() else b""
    expected = report_of_text(printed)
    assert Report.of(stream) == expected
    assert Report.of(io.BytesIO(stream)) == expected
    assert sum(expected.refused.values()) + expected.accepted == expected.sheets


def test_a_stream_longer_than_what_is_read_after_it_stops(gain_sheet):
    report = Report.of(io.BytesIO(b"\0" + gain_sheet * 10_000))
    assert (report.sheets, report.stopped, report.refused) == (1, True, {12: 1})
