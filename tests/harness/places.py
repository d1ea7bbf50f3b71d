"""Where things are."""
import os

TOP = os.path.dirname(os.path.dirname(os.path.dirname(os.path.abspath(__file__))))
DATA = f"{TOP}/tests/data"


def program_at(name):
    """The program that is tested: of the folder that CCELL_PROGRAMS names, else the one that was built, else that of dist/."""
    folder = os.environ.get("CCELL_PROGRAMS")
    built = f"{TOP}/crates/{name}/out/{name}"
    if folder:
        return f"{folder}/{name}"
    return built if os.path.exists(built) else f"{TOP}/dist/{name}"


ASK = program_at("ask")
CCELL = program_at("ccell")


def missing():
    """What to build before the tests, or nothing."""
    return [f"{path} is not there: run ./test, or rt ci" for path in (CCELL, ASK) if not os.path.exists(path)]
