"""Which program the scripts run. Each says it on standard error, so that nobody takes what one program did for what another one does."""
import os
import subprocess
import sys

TOP = os.path.realpath(os.path.join(os.path.dirname(os.path.abspath(__file__)), ".."))
NO_COMPILER = 3  # how tools/program ends where no program is current, and there is no rt here


def program(named=None, skipping=None):
    """The path of the program that was named, or else of the one that tools/program chooses. Where there is none the script ends: with the status of
    tools/program; but a script that gives its name as `skipping` is skipped, with a line and status 0, where there is nothing to compile with."""
    if named:
        if not os.access(named, os.X_OK):
            sys.exit(f"program: {named} was named, and can't be run")
        print(f"program: {named}, which was named: whether it is proved, or newer than the sources, isn't looked at", file=sys.stderr, flush=True)
        return os.path.abspath(named)
    with subprocess.Popen([os.path.join(TOP, "tools/program")], stdout=subprocess.PIPE, text=True) as choosing:
        try:
            found = choosing.communicate()[0].strip()
        except BaseException:  # a script that is ended doesn't leave a compilation behind
            choosing.terminate()
            raise
    if choosing.returncode == NO_COMPILER and skipping:
        print(f"{skipping}: skipped: there is no current program, and no rt here that compiles one")
        sys.exit(0)
    if choosing.returncode:
        sys.exit(choosing.returncode)
    return found
