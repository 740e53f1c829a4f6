"""Tests of the package over the library. Expected values are those of the worked examples.

    python3 -m unittest

in the folder above runs them, over the library that `import squall` finds.
"""

import os

if os.environ.get("SQUALL_DIR"):
    # Some tests start processes in other folders.
    os.environ["SQUALL_DIR"] = os.path.abspath(os.environ["SQUALL_DIR"])
