#!/usr/bin/env python3
"""Lays the cases of tests/data out as folders.

  tests/unpack.py FOLDER

A file GROUP.json has the cases of a group: by name, the files of each with their texts, byte for byte in Latin-1. They come
from an independent reading of the rules, not from this program.
"""
import json
import os
import sys

HERE = os.path.dirname(os.path.abspath(__file__))


def lay(group, to):
    with open(group, encoding="ascii") as it:
        cases = json.load(it)
    for name, files in cases.items():
        for file, text in files.items():
            path = os.path.join(to, name, file)
            os.makedirs(os.path.dirname(path), exist_ok=True)
            with open(path, "wb") as it:
                it.write(text.encode("latin1"))


def main():
    to = sys.argv[1]
    folder = os.path.join(HERE, "data")
    for name in sorted(os.listdir(folder)):
        lay(os.path.join(folder, name), os.path.join(to, name.removesuffix(".json")))


main()
