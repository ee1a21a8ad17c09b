"""A proved dictionary of byte strings or of texts: a mapping to whole numbers that also finds prefixes, completions and tokens.

>>> from roskvidh import Cedar
>>> d = Cedar({"net": 7, "network": 8, "ten": 9}, text=True)
>>> d["net"], "nets" in d, len(d)
(7, False, 3)
>>> list(d.keys("net"))
['net', 'network']
>>> d.longest_prefix("networks")
('network', 8)
>>> [(m.place, m.length, m.value) for m in d.scan("a network")]
[(2, 3, 7), (2, 7, 8)]
"""

try:
    from ._core import LOAD_LIMIT, MAX_VALUE, MIN_VALUE, CedarError, Match, Matches, Scanner
except ImportError as error:
    raise ImportError(
        f"the compiled part of roskvidh is missing or can't be loaded ({error}). "
        "Install the package by pip, into an environment: python/README.md says how"
    ) from error

from .cedar import Cedar
from .maps import CedarMap, Found
from .store import Store
from .words import Stats

__version__ = "0.1.0"
__all__ = ["LOAD_LIMIT", "MAX_VALUE", "MIN_VALUE", "Cedar", "CedarError", "CedarMap", "Found", "Match", "Matches", "Scanner", "Stats",
           "Store"]
