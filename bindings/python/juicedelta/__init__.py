"""R*-trees of boxes of whole numbers, windows that are told what edits change in them, and scripts over tables of boxes, by the
library of Juicedelta.

The library is the file that JUICEDELTA_LIBRARY names, else the one in the package, else lib/libjuicedelta.so of the
checkout, else the installed one.
Several threads may use one tree or live windows: calls that read run side by side, without the interpreter's lock, and those
that write alone. A shell is used by one thread at a time.
"""

# Before the modules, which compare it with the library's.
__version__ = "0.1.0"
__license__ = "Apache-2.0"

from ._errors import BadValue, JuicedeltaError, MissingId, NoMemory, StatementRefused
from ._grid import Grid
from ._live import Kind, Live, WindowChange
from ._many import Columns, Item, Pairs, Relation
from ._script import Change, Value
from ._shells import Shell
from ._spread import Many
from ._trees import RTree

__all__ = [
    "BadValue", "Change", "Columns", "Grid", "Item", "JuicedeltaError", "Kind", "Live", "Many", "MissingId", "NoMemory",
    "Pairs", "Relation", "RTree", "Shell", "StatementRefused", "Value", "WindowChange",
]

# Tracebacks and pickles name what is public by the package, not by the module that it stands in.
for _public in (
    BadValue, Change, Columns, Grid, Item, JuicedeltaError, Live, Many, MissingId, NoMemory, Pairs, RTree, Shell,
    StatementRefused, WindowChange
):
    _public.__module__ = __name__
