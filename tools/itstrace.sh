#!/bin/sh
# Runs the program itstrace on a trace: tools/itstrace.sh [--text] [FILE], or standard input. It prints 01's lines.
exec "$(dirname "$0")/on-trace.sh" itstrace "$@"
