"""Pictures of street lists and drives. A drawing is computed first, and written as SVG second.

`town` shows a list, `drive` an answer on it, `cars` two cars' marks, `budgets` what a raised budget buys; `svg_file`
and `svg_element` write them.
"""

from .cars import cars
from .chart import budgets
from .drawing import Drawing
from .drive import drive
from .svg import svg_element, svg_file
from .town import town

__all__ = ["Drawing", "budgets", "cars", "drive", "svg_element", "svg_file", "town"]
