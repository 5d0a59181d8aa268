import gc
import sys

from .command import main

status = main()
# The system takes back all memory at once. To look for garbage in it before takes as long as some ten short runs.
gc.freeze()
sys.exit(status)
