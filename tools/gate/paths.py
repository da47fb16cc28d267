"""Where the makers, the reference model and the built programs stand: imported before their modules."""

import pathlib
import sys

ROOT = pathlib.Path(__file__).resolve().parents[2]
PROGRAM = 'crates/{0}/out/{0}'       # as rt builds it, by rt ci or tools/build
sys.path[1:1] = [str(ROOT / 'tools' / 'make'), str(ROOT / 'model')]
