"""Formats standard input at 60 columns: python3 notes.py. Debian's package python3-rudignals has the module."""
import sys

import rudignals

try:
    sys.stdout.buffer.write(rudignals.format(sys.stdin.buffer.read(), width=60))
except rudignals.Refused as refused:
    sys.exit(f"refused: {refused.code.words} (N {refused.number})")
