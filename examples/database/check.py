#!/usr/bin/env python3
"""Checks of the modules here, without the built program: python3 examples/database/check.py"""
import os
import sys
import unittest

HERE = os.path.dirname(os.path.abspath(__file__))
CHECKS = os.path.join(HERE, "checks")

if __name__ == "__main__":
    sys.path[:0] = [HERE, CHECKS]
    unittest.main(module=None, argv=["check.py", "discover", "-s", CHECKS, "-p", "check_*.py"])
