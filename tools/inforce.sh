#!/bin/sh
# Which mappings are in force at the end of a trace: tools/inforce.sh [--each] [--text] [FILE], or standard input. With --each they are printed after
# each record, below the record's own lines.
exec "$(dirname "$0")/on-trace.sh" inforce "$@"
