"""Has `python3 -m pgpeer_ceph` be the command."""

import sys

from .cli import main

sys.exit(main())
