"""Proves and builds the programs that the scripts beside this file measure."""

import os
import subprocess
import sys

ROOT = os.path.dirname(os.path.dirname(os.path.abspath(__file__)))


def place(name):
    """Where the built program of a crate is."""
    return os.path.join(ROOT, "crates", name, "out", name)


def prove(name="tau"):
    """Proves and builds the program tau, and behind it the program of the crate `name`. What is built stays as it is.

    Ends the script where that fails, and where it is asked for help, which is what stands at its top.
    """
    if {"-h", "--help"} & set(sys.argv[1:]):
        print(sys.modules["__main__"].__doc__.strip())
        sys.exit(0)
    done = subprocess.run([os.path.join(ROOT, "bin", "tau"), "prove"], stdin=subprocess.DEVNULL, check=False)
    if done.returncode == 0 and name != "tau":
        crate = os.path.join(ROOT, "crates", name)
        # `rt run` runs the program too, here on the input of the gate, with which it ends well.
        with open(os.path.join(crate, "stdin"), "rb") as given:
            done = subprocess.run(["rt", "run"], cwd=crate, stdin=given, stdout=subprocess.DEVNULL, check=False)
    if done.returncode != 0:
        sys.exit(f"{name} isn't built")
