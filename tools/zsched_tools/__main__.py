"""Starts a command: python3 zsched_tools COMMAND WORD ..

A Python older than the tools need must be able to read this file. From here on Ctrl-C ends a command with 130."""
import importlib
import os
import signal
import sys

LEAST = (3, 11)

sys.path[0] = os.path.dirname(os.path.dirname(os.path.abspath(__file__)))
sys.argv.pop(0)
tool = os.path.basename(sys.argv[0])
if tuple(sys.version_info[:2]) < LEAST:
    sys.stderr.write("%s: needs Python %d.%d or later, and this is Python %d.%d\n"
                     % ((tool,) + LEAST + tuple(sys.version_info[:2])))
    sys.exit(3)


def end(*_):
    os.write(2, ("%s: interrupted\n" % tool).encode())
    os._exit(130)


signal.signal(signal.SIGINT, end)
# The shell's lines of each tool block it until here, if `env` can.
signal.pthread_sigmask(signal.SIG_UNBLOCK, [signal.SIGINT])
# `try` can't be the name of a package. The version is printed before the tool's own modules are read.
is_version = sys.argv[1:] == ["--version"]
package = "" if is_version else tool[len("zsched-"):].replace("try", "trying") + "."
command = importlib.import_module("zsched_tools." + package + "command")
sys.exit(command.print_version(tool) if is_version else command.main())
