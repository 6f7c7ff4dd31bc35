"""Runs a program whose standard error is a terminal, and prints what comes there. Words: the program and its own."""
import os
import pty
import subprocess
import sys

master, slave = pty.openpty()
program = subprocess.Popen(sys.argv[1:], stdout=subprocess.DEVNULL, stderr=slave)
os.close(slave)
told = b""
try:
    while piece := os.read(master, 4096):
        told += piece
except OSError:  # what a terminal answers whose other end is closed
    pass
sys.stdout.buffer.write(told)
sys.exit(program.wait())
