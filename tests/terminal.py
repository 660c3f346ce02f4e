"""Runs a command whose standard error is a terminal: terminal.py FILE WORD..

FILE gets what the terminal got, with line feeds as ends of line. The exit status is the command's. Its standard input is that of file descriptor 3 where
that is open: Python itself can't begin with a folder as its own.
"""
import os
import pathlib
import subprocess
import sys

try:
    os.fstat(3)
    given = 3
except OSError:
    given = None
told, terminal = os.openpty()
# Signals that are ignored here stay so, as of a file that may not grow.
process = subprocess.Popen(sys.argv[2:], stdin=given, stderr=terminal, restore_signals=False)
os.close(terminal)
got = b""
while True:
    try:
        piece = os.read(told, 4096)
    except OSError:  # nobody has the terminal open any more
        break
    if not piece:
        break
    got += piece
status = process.wait()
pathlib.Path(sys.argv[1]).write_bytes(got.replace(b"\r\n", b"\n"))
sys.exit(status)
