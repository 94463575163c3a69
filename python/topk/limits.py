"""The limits of topk, as docs/topk.1 of the repository states them."""
from __future__ import annotations

import re

MAX_ROWS = 200_000
"""The most rows of a list, and so of a table when it is asked."""
MAX_GRADE = 1_000_000
"""The greatest grade: that of the best value of a criterion."""
MAX_OBJECT = 0xFFFF_FFFF
"""The greatest number of an object."""
MAX_LISTS = 8
"""The most lists that an expression names."""
MAX_CATALOG = 64
"""The most lists of a catalog or a bundle."""
MAX_NODES = 64
"""The most nodes of an expression: lists, operators and weighted sums."""
MAX_NESTING = 8
"""How deep an expression nests at most, where the name of a list is 1 deep."""
MAX_COUNT = 1_000_000
"""The greatest k, cost and room of a query."""
MAX_VALUE = 0x7FFF_FFFF_FFFF_FFFF
"""The greatest weight, and the greatest value that a node of an expression may have where all grades are `MAX_GRADE`.
"""
MAX_QUERY = 4096
"""The most bytes of a query."""
MAX_INPUT = 134_217_728
"""The most bytes of a bundle or a certificate."""
NAME = re.compile(r"[A-Za-z][A-Za-z0-9_]{0,31}", re.ASCII)
"""What names of lists look like."""
