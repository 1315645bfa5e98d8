"""Where things stand in the repository. The reference, and the frames of the program `vectors`, are the tests' own."""

import sys
from pathlib import Path

ROOT = Path(__file__).resolve().parent.parent.parent
HERE = Path(__file__).resolve().parent
SAMPLES = ROOT / "samples"
PROGRAMS = ROOT / "target" / "bin"

if str(ROOT / "tests") not in sys.path:
    sys.path.append(str(ROOT / "tests"))
