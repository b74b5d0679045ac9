"""What `sw` has to answer, with its line on standard error and its status:

  python3 tools/model run RING < requests > replies
  python3 tools/model where RING ACCOUNT [CONTAINER [OBJECT]]"""
import os
import sys

sys.dont_write_bytecode = True
sys.path.insert(0, os.path.join(os.path.dirname(os.path.abspath(__file__)), ".."))
from model.sessions import command  # noqa: E402: found by the line above


def main():
    words = [os.fsencode(it) for it in sys.argv[1:]]
    out, line, status = command(words, sys.stdin.buffer.read() if words[:1] == [b"run"] else b"")
    sys.stdout.buffer.write(out)
    sys.stderr.buffer.write(line)
    return status


sys.exit(main())
