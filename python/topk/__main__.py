"""`python3 -m topk`: the commands over tables and list files."""
from __future__ import annotations

import sys

from topk.commands import main

if __name__ == "__main__":
    sys.exit(main())
