"""What the program printed, as the tools read it on standard input."""
import sys

from command import read_bytes, refuse
from inputs import FAULTS

REFUSALS = {f"refused {number} {words}" for number, words in FAULTS.items()}


def read_lines(path="FILE"):
    """The lines that the program printed of the input at this path. Where it refused the input, that is passed on."""
    data = read_bytes("-")
    if data is None:
        sys.exit(2)
    lines = data.decode("utf-8", "replace").splitlines()
    first = lines[0] if lines else ""
    if first in REFUSALS:
        refuse(f"{first}; tools/explain {path} says where and why")
    if first.startswith("refused "):
        refuse(first)
    return lines
