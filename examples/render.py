"""Writes the HTML of standard input: PYTHONPATH=bindings/python python3 render.py"""
import sys

import cmk

try:
    sys.stdout.write(cmk.html(sys.stdin.buffer.read(), strike=True))
except cmk.CmkError as error:
    sys.exit(error.line)
