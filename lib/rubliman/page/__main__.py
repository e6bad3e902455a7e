"""The page as a program, over any build of the monitor."""
import sys

from .command import main

sys.exit(main())
