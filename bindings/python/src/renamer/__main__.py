"""`python -m renamer JOB ..` is `renamer JOB ..`. The status is 70 if there is no program."""

import os
import sys

from ._program import program

try:
    os.execv(program(), ["renamer", *sys.argv[1:]])
except OSError as fault:
    print(f"renamer: {fault}", file=sys.stderr)
    sys.exit(70)
