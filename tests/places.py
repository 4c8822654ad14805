"""Where the repository and its built programs are, and the modules of bench/ on the path: what each test imports first."""
import os
import sys

sys.dont_write_bytecode = True
HERE = os.path.dirname(os.path.abspath(__file__))
TOP = os.path.dirname(HERE)
CRATES = os.path.join(TOP, "crates")
EXAMPLES = os.path.join(TOP, "examples")
sys.path.append(os.path.join(TOP, "bench"))


def built(name):
    """The path of a program of this repository, where `rt ci` and `tools/built` leave it."""
    return os.path.join(CRATES, name, "out", name)
