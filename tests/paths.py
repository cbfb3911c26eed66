"""Lets a test import the packages in `scripts/`: this is imported before them."""

import pathlib
import sys

sys.path.append(str(pathlib.Path(__file__).resolve().parent.parent / "scripts"))
