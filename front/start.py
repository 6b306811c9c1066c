"""start.py COMMAND ARGS..: starts the command of that name from this folder, where this Python is new enough. Written so that an older one can read it."""

import sys

name = sys.argv.pop(1)
if sys.version_info < (3, 9):
    sys.stderr.write("python3 is older than version 3.9, which ./%s needs.\n" % name)
    sys.exit(2)

import importlib  # noqa: E402

import ending  # noqa: E402

ending.run(importlib.import_module(name).command)
