"""Hullashlar: proved cubic-spline surfaces, from Python.

>>> from hullashlar import Surface
>>> gain = Surface([[0.25, 0.5, 1.0, 2.0], [40.0, 60.0, 80.0]],
...                [[10.0, 7.0, 3.0], [14.0, 9.0, 4.0], [20.0, 14.0, 6.0], [26.0, 18.0, 8.0]], ends="natural")
>>> gain.change((2, 1), 15.0)
6
>>> float(gain([1.0, 60.0]))
15.0

Every number comes from a proved call of the library; this package only hands arrays to it and back.
"""

from .curves import Curve, curve
from .device import cell_value
from .refusals import Refused, Stale
from .report import Order, Report
from .sheets import sheet_value
from .steps import stepped
from .surface import Found, Surface

__all__ = ["Curve", "Found", "Order", "Refused", "Report", "Stale", "Surface", "cell_value", "curve", "sheet_value", "stepped"]
