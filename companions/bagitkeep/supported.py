"""Refuses a Python that is too old for this package."""
import sys

if sys.version_info < (3, 9):
    raise ImportError(
        "it needs Python 3.9 or newer, and this is %d.%d"
        % sys.version_info[:2]
    )
