"""`python3 -m rubliman.importer`."""
import sys

from .command import main

sys.exit(main(sys.argv[1:]))
