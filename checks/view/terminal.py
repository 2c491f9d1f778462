#!/usr/bin/env python3
"""Runs a program with a terminal as its standard input, on which two lines are typed, and prints what it prints.

    checks/view/terminal.py PROGRAM WORD..
"""

import os
import pty
import subprocess
import sys

terminal, end = pty.openpty()
os.write(terminal, b"rnu\nquit\n")
program = subprocess.Popen(sys.argv[1:], stdin=end, stdout=subprocess.PIPE, stderr=subprocess.PIPE)
output, errors = program.communicate()
sys.stdout.buffer.write(output + errors)
sys.exit(program.returncode)
