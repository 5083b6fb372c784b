"""Symmetric functions and Schubert calculus, computed by `calc`: every coefficient that it prints is proved correct.
    >>> calc = Calculator()
    >>> calc.mult([2, 1], [2, 1])[3, 2, 1]
    2

Each command of `calc` is a method of `Calculator`. It takes any sequence of integers, and returns partitions, permutations and tableaux as tuples.
Coefficients are `int` or `Fraction`. A command that `calc` refuses raises a `Refusal`."""
from pathlib import Path as _Path

# (each under its own name, for users who import it by that name and for their types)
from ._arguments import Exponents as Exponents, Partition as Partition, Permutation as Permutation
from ._calculator import Calculator
from ._commands import LiteralRefusal, RangeRefusal, Refusal, ShapeRefusal, SyntaxRefusal, TooLarge
from ._elements import Expansion, Parent as Parent
from ._family import Family as Family, Row as Row
from ._kinds import Number as Number
from ._lines import Block as Block, Task as Task
from ._tableaux import Grid as Grid, Pair as Pair, Picture as Picture, Tableau as Tableau, diagram as diagram, rothe_diagram as rothe_diagram
from ._ways import Ended as Ended, NoCalculator

# What `from yorqanish import *` brings: no name that Sage has for something of its own.
__all__ = ["Calculator", "Expansion", "LiteralRefusal", "NoCalculator", "RangeRefusal", "Refusal", "ShapeRefusal", "SyntaxRefusal"]
__all__ += ["TooLarge", "__version__"]

# The version: in the package, or in the checkout that it stands in.
_places = [_Path(__file__).parent / it for it in ("../../VERSION", "VERSION")]
__version__ = next((it.read_text("ascii").strip() for it in _places if it.exists()), "unknown")
# (pickles and tracebacks name this module, and not those in which the classes are written)
for _it in list(vars().values()):
    if isinstance(_it, type) and _it.__module__.startswith("yorqanish."):
        _it.__module__ = __name__
