"""Ends a script whose Python is too old for tools/: each of them imports this first. Older ones can read this file, too."""
import sys

LEAST = (3, 10)

if sys.version_info < LEAST:
    sys.exit("squall: tools/ needs Python {}.{} or later, and this is {}.{}.{}".format(*(LEAST + tuple(sys.version_info[:3]))))
