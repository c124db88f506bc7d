#!/usr/bin/env python3
"""Compares the slow reading of the rules with what is expected of each worked example (lib/rules.py).

The last line is 'N passed, M failed'."""
import sys

from lib import counting, rules

if __name__ == "__main__":
    sys.exit(counting.count(rules.comparisons()))
