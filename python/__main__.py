"""Runs the tool that has the name of the file by which it is called: tools/suite, ./test, or lab-suite."""
import sys

from labtools.common.program import run_called

if __name__ == "__main__":
    # Who calls this by runpy says so, since that puts the name of this folder there.
    sys.argv[0] = globals().get("called", sys.argv[0])
    # Those who change lab have further tools, in a package that is not installed.
    run_called("labtools", "labdev")
