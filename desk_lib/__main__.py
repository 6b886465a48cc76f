"""What ../desk starts."""
# (what `signal` itself imports takes a while)
import _signal  # type: ignore[import]

# until the desk takes its signals, Ctrl-C ends it without a word
if _signal.getsignal(_signal.SIGINT) is _signal.default_int_handler:
    _signal.signal(_signal.SIGINT, _signal.SIG_DFL)
_signal.pthread_sigmask(_signal.SIG_UNBLOCK, [_signal.SIGINT])
import os
import sys

# the tree stays as it is, unless the caller names a folder for what Python keeps
sys.dont_write_bytecode = sys.pycache_prefix is None
if sys.version_info < (3, 10):
    sys.exit("desk: Python 3.10 or later is needed")
sys.path[0] = os.path.dirname(os.path.dirname(os.path.realpath(__file__)))

from desk_lib.command_line import main

if __name__ == "__main__":
    sys.exit(main(sys.argv[1:]))
