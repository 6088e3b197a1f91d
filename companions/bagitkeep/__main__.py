"""The command `bagit-keep`."""
import sys

try:
    from bagitkeep import supported  # noqa: F401
except ImportError as error:
    sys.stderr.write("bagit-keep: %s\n" % error)
    sys.exit(3)

from bagitkeep.commands import run  # noqa: E402

if __name__ == "__main__":
    run()
