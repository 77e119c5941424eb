"""`python3 -m pgpeer_follow`."""

import sys

from .main import main

if __name__ == "__main__":
    sys.exit(main())
