"""The functions, as the program `function_table` prints them: names by number, the names of their words, and which are realm calls."""
import pathlib

TABLE = pathlib.Path(__file__).resolve().parent.parent / "crates" / "function_table" / "stdout"


def words_named(count, names):
    """The words' names. The last name stands for all words that are left, which then get a number each."""
    left = count - len(names) + 1
    return names if left < 2 else names[:-1] + [f"{names[-1]}{number}" for number in range(left)]


ROWS = [line.split() for line in TABLE.read_text(encoding="ascii").splitlines()]
NAMES = {number: name.upper() for number, _, _, name, *_ in ROWS}
WORDS = {number: words_named(int(count), names) for number, _, count, _, *names in ROWS}
globals().update({name: number for number, name in NAMES.items()})

# Realm calls are given inside a REC, as Exit is, and all others outside.
REALM_CALLS = {number for number, caller, *_ in ROWS if caller == "realm"}
