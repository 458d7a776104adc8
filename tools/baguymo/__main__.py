"""What bin/baguymo runs."""
import os
import sys

if sys.version_info < (3, 9):
    sys.exit("baguymo: needs Python 3.9 or later, and this is " + sys.version.split()[0])
sys.path.insert(0, os.path.dirname(os.path.dirname(os.path.realpath(__file__))))
try:
    from baguymo.main import main
except (Exception, KeyboardInterrupt) as fault:  # a part of the command that cannot be read, or an interruption: still one line
    sys.exit(f"baguymo: {type(fault).__name__}: {fault}")
os._exit(main(sys.argv[1:]))
