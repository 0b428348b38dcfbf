"""`python3 tools/timeline` starts here."""
import sys

from timeline.command import main

sys.exit(main(sys.argv[1:]))
