#!/usr/bin/env python3
"""Answers as the model does: the text of a journal on standard input, its answer on standard
output, its exit status.

Usage: checks/replay_model.py < JOURNAL
"""

import sys

from model import replay

if __name__ == "__main__":
    status, output = replay(sys.stdin.buffer.read())
    sys.stdout.buffer.write(output)
    sys.exit(status)
