"""The command `postman`, as `python3 -m postman`."""

import sys

from .command import main

sys.exit(main())
