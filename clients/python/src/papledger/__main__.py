"""`python3 -m papledger` is the command `papledger`."""
import sys

from .command import main

sys.exit(main())
