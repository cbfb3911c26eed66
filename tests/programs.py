"""Where the programs are that tests run, and the sample commit: `helpers.programs`, as tests import it."""

import paths  # before what stands in scripts/
from helpers.programs import (A_PORT, BUILT, EXAMPLES, EXPORTER, GIT_OBJECTS, MOUNT_GIT, MOUNTD, SAMPLE_BLOB,
                              SAMPLE_OBJECTS, SAMPLE_ROOT, SHELL, TOP, listening, mountd)

__all__ = ["A_PORT", "BUILT", "EXAMPLES", "EXPORTER", "GIT_OBJECTS", "MOUNTD", "MOUNT_GIT", "SAMPLE_BLOB",
           "SAMPLE_OBJECTS", "SAMPLE_ROOT", "SHELL", "TOP", "listening", "mountd"]
