"""The command `python3 -m desk`."""
import sys

from .cli import main

if __name__ == '__main__':
    sys.exit(main())
