"""What each test begins with: the companion's folder on the path, and where the repository's top is. No test has a program built, which takes hours."""
import os
import sys
from pathlib import Path

TOP = Path(__file__).resolve().parents[2]
if str(TOP / "companion") not in sys.path:
    sys.path.insert(0, str(TOP / "companion"))
os.environ["URWEB_BUILD"] = "no"
EXAMPLES = TOP / "examples"
NOTES = EXAMPLES / "notes.urp"
