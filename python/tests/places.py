"""Where things are, for the tests."""
import os
from pathlib import Path

TOP = Path(__file__).parents[2]
ROWS = TOP / "crates" / "worked_rows" / "data"
EXAMPLES = TOP / "examples"

# The tests are of the program as it is built. (The launcher, which a session falls back on, might prove and build it first.)
os.environ.setdefault("ASPAVIEW", str(TOP / "crates" / "aspaview" / "out" / "aspaview"))
