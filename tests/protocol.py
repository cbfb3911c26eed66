"""The fields of a line, spelled by the client library.

The texts of replies are the tests' own, so that what the program prints is compared with what nobody else reads.
"""

import paths  # before what stands in scripts/
from yakembi.client import data_text, name_text, path_text

__all__ = ["data_text", "name_text", "path_text"]
