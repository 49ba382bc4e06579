"""`python3 -m propbench` is `propdesk`."""

import sys

from propbench.desk import main

sys.exit(main())
