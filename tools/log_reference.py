#!/usr/bin/env python3
"""The log program of document 01 by reference.py: reads the files scheme and requests of the current folder and prints
one line a record."""
import sys

sys.dont_write_bytecode = True      # no __pycache__ in the repository
import reference as ref

if __name__ == '__main__':
    for line in ref.run(ref.contents('scheme', ref.SCHEME_READ), ref.contents('requests', ref.LOG_READ)):
        print(line)
