"""The order in which each call looks for its refusals, read off the definitions that the code is proved against: off the numbers of their tests, in
the order in which these are made."""

import re
from typing import Union

from repository import Repository

# The definition that says what each public call refuses: its file, and its name there.
DEFINED = {
    "axis_curve::moments": "rules/Calls moments_refusal",
    "axis_curve::curve": "rules/Calls curve_refusal",
    "axis_curve::knot_slopes": "rules/Calls slopes_refusal",
    "tensor::build": "rules/Calls build_refusal",
    "tensor::change": "rules/Calls change_refusal",
    "tensor_verify::verify": "tensor_verify/Verify verify_refusal",
    "query_full::query": "rules/Calls query_refusal",
    "query_quick::quick_query": "rules/Calls quick_query_refusal",
    "query_even::even_query": "rules/EvenCalls even_query_refusal",
    "query_direct::direct_query": "query_direct/DirectCalls direct_query_refusal",
    "query_profile::even_profile": "query_profile/ProfileCalls even_profile_refusal",
    "query_many::quick_queries": "query_many/ManyCalls queries_refusal",
    "query_many::direct_queries": "query_many/ManyCalls queries_refusal",
    "step_axis::exact_index": "rules/StepCalls exact_refusal",
    "step_axis::locate_axis": "rules/StepCalls axis_refusal",
    "step_axis::locate_step_index": "rules/StepCalls step_refusal",
    "step_surface::stepped": "rules/StepCalls stepped_refusal",
    "step_many::stepped_many": "step_many/ManySteps stepped_many_refusal",
    "sheet_read::read": "sheet_read/Read read_refusal",
    "sheet_read::read_edition_1": "sheet_read/Read read_edition_1_refusal",
    "sheet_build::tensor_of_sheet": "sheet_build/SheetTensor sheet_tensor_refusal",
    "sheet_write::write": "sheet_write/Write write_refusal",
    "sheet_surface::surface": "sheet_surface/SheetSurface surface_refusal",
    "program_sheet_text::sheet_text": "program_sheet_text/SheetText lent_refusal",
    "device_cell::cell_value": "device_cell/DeviceCell cell_refusal",
    "device_cursor::Cursor::start": "",
    "device_cursor::Cursor::next": "device_cursor/DeviceCurve next_refusal",
    "program_device_text::device_text": "program_device_text/DeviceText device_text_refusal",
    "report::report_of_bytes": "",
    "program_report_text::report_text": "program_report_text/ReportText report_text_refusal",
}

# Each exported call: the call that it hands over to, and the definition of what the host itself refuses before; of the device it is 4 alone.
EXPORTED = {
    "hullashlar_moments": ("axis_curve::moments", "c_refusals/OwnRefusals moments_own_rows"),
    "hullashlar_curve": ("axis_curve::curve", "c_refusals/OwnRefusals curve_own_rows"),
    "hullashlar_slopes": ("axis_curve::knot_slopes", ""),
    "hullashlar_build": ("tensor::build", "c_refusals/OwnRefusals build_own_rows"),
    "hullashlar_change": ("tensor::change", "c_refusals/OwnRefusals change_own_rows"),
    "hullashlar_verify": ("tensor_verify::verify", "c_verify/VerifyExports verify_own_rows"),
    "hullashlar_query": ("query_full::query", "c_refusals/OwnRefusals query_own_rows"),
    "hullashlar_quick_query": ("query_quick::quick_query", "c_refusals/OwnRefusals query_own_rows"),
    "hullashlar_even_query": ("query_even::even_query", "c_refusals/OwnRefusals even_query_own_rows"),
    "hullashlar_direct_query": ("query_direct::direct_query", "c_refusals/OwnRefusals query_own_rows"),
    "hullashlar_even_profile": ("query_profile::even_profile", "c_profile/ProfileExports even_profile_own_rows"),
    "hullashlar_quick_queries": ("query_many::quick_queries", "c_many/ManyExports queries_own_rows"),
    "hullashlar_direct_queries": ("query_many::direct_queries", "c_many/ManyExports queries_own_rows"),
    "hullashlar_read": ("sheet_read::read", "c_refusals/OwnRefusals read_own_refusal"),
    "hullashlar_read_edition_1": ("sheet_read::read_edition_1", "c_refusals/OwnRefusals read_edition_1_own_refusal"),
    "hullashlar_sheet_tensor": ("sheet_build::tensor_of_sheet", "c_refusals/OwnRefusals sheet_tensor_own_refusal"),
    "hullashlar_write": ("sheet_write::write", "c_refusals/OwnRefusals write_own_rows"),
    "hullashlar_exact_index": ("step_axis::exact_index", "c_step/StepExports exact_own_rows"),
    "hullashlar_locate_axis": ("step_axis::locate_axis", "c_step/StepExports axis_own_rows"),
    "hullashlar_locate_step_index": ("step_axis::locate_step_index", "c_step/StepExports step_own_rows"),
    "hullashlar_stepped": ("step_surface::stepped", "c_step/StepExports stepped_own_rows"),
    "hullashlar_stepped_many": ("step_many::stepped_many", "c_step_many/ManyStepExports many_own_rows"),
    "hullashlar_cell_value": ("device_cell::cell_value", "4"),
    "hullashlar_cursor_next": ("device_cursor::Cursor::next", "4"),
    "hullashlar_surface": ("sheet_surface::surface", ""),
}

# What goes through the fields of a sheet, axis after axis, or builds from its parts and asks; Faults, SheetTensor and SheetSurface say it.
READING = [11, 12, 1, 2, 13, 22, 3, 14]
BY_RECURSION = {
    "sheet_refusal": READING,
    "edition_1_refusal": [number for number in READING if number != 22],
    "building_refusal": [7, 8, 9, 10],
    "asked": [7, 18, 10],
}

Tree = Union[str, list]


def body(text: str, name: str) -> str:
    """What stands behind the equals sign of a definition, to the next empty line."""
    match = re.search(rf"^( *){re.escape(name)}(?: [^\n=:]+)? =(.*?)(?=\n\s*\n|\Z)", text, re.M | re.S)
    return match[2] if match else ""


def tree(text: str) -> list:
    """The brackets of a definition as lists of words; what a field is taken of stands for it."""
    stack: list[list] = [[]]
    for token in re.findall(r"[(){}]|[^\s(){}]+", re.sub(r"--.*|(?<=[\w')])\.\w+", "", text)):
        if token in "({":
            stack.append([])
        elif token in ")}":
            closed = stack.pop()
            stack[-1].append(closed)
        else:
            stack[-1].append(token)
    return stack[0]


class Definitions:
    """The orders that the definitions of the repository have."""

    def __init__(self, repository: Repository) -> None:
        self.repository = repository

    def order(self, place: str) -> list[int]:
        """The order of a definition, given as CRATE/CHAPTER NAME."""
        if not place or place == "4":
            return [int(place)] if place else []
        file, name = place.split()
        crate, chapter = file.split("/")
        return self.named(f"crates/{crate}/specs/{chapter}.antt", name)

    def named(self, file: str, name: str) -> list[int]:
        if name in BY_RECURSION:
            return BY_RECURSION[name]
        for other in [file, *self.repository.matching(r"crates/\w+/specs/\w+\.antt")]:
            text = body(self.repository.text(other), name) if other in self.repository.paths else ""
            if text:
                return self.of(other, tree(text))
        return []

    def of(self, file: str, said: Tree) -> list[int]:
        """The numbers of an expression in the order in which their tests are made."""
        if isinstance(said, str):
            return [int(said)] if said.isdigit() and said != "0" else self.named(file, said) if is_refusal(said) else []
        for sign in ("++", "∷"):
            if sign in said:
                at = said.index(sign)
                return self.of(file, said[:at]) + self.of(file, said[at + 1 :])
        if not said:
            return []
        if said[0] == "cond" and len(said) == 4:
            first, second = self.of(file, said[2]), self.of(file, said[3])
            return second + first if isinstance(said[3], str) and said[3].isdigit() else first + second
        if said[0] in ("or_else", "refused_first", "lowest", "after"):
            return [number for part in said[1:] for number in self.of(file, part)]
        if said[0] == "row":
            return [int(said[1])]
        return self.of(file, said[0])

    def of_call(self, call: str) -> list[int]:
        return once(self.order(DEFINED[call]))

    def of_export(self, export: str) -> list[int]:
        """The host's own refusals, 4 at its last place among them, and then those of the call."""
        call, own = EXPORTED[export]
        before = once(self.order(own)[::-1])[::-1]
        return before + [number for number in self.of_call(call) if number not in before]


def is_refusal(name: str) -> bool:
    return bool(re.search(r"refusal|rows", name)) or name in BY_RECURSION


def once(numbers: list[int]) -> list[int]:
    return list(dict.fromkeys(numbers))
