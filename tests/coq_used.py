"""Runs a command, and says behind its standard error how many seconds of a processor and megabytes it took, with all that it ran: coq_used.py COMMAND WORD.."""
import resource
import subprocess
import sys

status = subprocess.run(sys.argv[1:]).returncode
used = resource.getrusage(resource.RUSAGE_CHILDREN)
print(round(used.ru_utime + used.ru_stime), round(used.ru_maxrss / 1024), file=sys.stderr)
sys.exit(status)
