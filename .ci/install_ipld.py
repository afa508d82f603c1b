"""Installs the program ipld.

usage: ./install-ipld [--unproved] [FOLDER]

FOLDER is ~/.local/bin if it is left out, and is made if it isn't there. The proved program is
installed as FOLDER/ipld. If it isn't built yet it is proved first, with all crates below it, which
takes about half an hour on four cores.

With --unproved nothing is proved: the program is built in about two minutes of a core, stops at an
overflow or an index out of bounds, and is installed under the name FOLDER/ipld-unproved.
"""

import os
import pathlib
import sys
import tempfile

sys.dont_write_bytecode = True
from built import NotBuilt, built  # noqa: E402
from prove import NotProved, prove  # noqa: E402
from quick import build  # noqa: E402


def proved_program():
    """
    Returns the path of the proved program, which it proves and builds if it isn't there or a source
    is newer.
    """
    try:
        return built("ipld", "ipld")
    except NotBuilt:
        print(
            "ipld is not proved yet, or a source has changed: proving it, about half an hour on four cores; for a quick build: ./install-ipld --unproved",
            flush=True,
        )
        prove("ipld")
        return built("ipld", "ipld")


def unproved_program():
    """Returns the path of the program without proofs."""
    print("building ipld without proofs, about two minutes of a core", flush=True)
    return build("ipld")


def install(program, folder, name):
    """
    Puts a program into a folder under a name. A program that is there stays until the new one is
    whole.
    """
    folder.mkdir(parents=True, exist_ok=True)
    with tempfile.NamedTemporaryFile(dir=folder, prefix=f".{name}-", delete=False) as half:
        try:
            half.write(program.read_bytes())
            os.chmod(half.name, 0o755)
            os.replace(half.name, folder / name)
        except BaseException:
            os.unlink(half.name)
            raise
    return folder / name


def main():
    words = [word for word in sys.argv[1:] if word != "--unproved"]
    is_unproved = len(words) < len(sys.argv) - 1
    if len(words) > 1 or any(word.startswith("-") for word in words):
        sys.exit(__doc__)
    folder = pathlib.Path(words[0] if words else "~/.local/bin").expanduser()
    try:
        program = unproved_program() if is_unproved else proved_program()
        installed = install(program, folder, "ipld-unproved" if is_unproved else "ipld")
    except (NotBuilt, NotProved) as wrong:
        sys.exit(f"install-ipld: {wrong}")
    except OSError as wrong:
        sys.exit(
            f"install-ipld: {wrong.filename or folder}: {wrong.strerror}; give a folder that you can write to: ./install-ipld FOLDER"
        )
    print(f"installed {installed}{', which is not proved' if is_unproved else ''}")
    if str(folder.resolve()) not in [
        str(pathlib.Path(it).resolve()) for it in os.environ.get("PATH", "").split(":") if it
    ]:
        print(
            f'{folder} is not on the path; to put it there: export PATH="{folder.resolve()}:$PATH"'
        )


if __name__ == "__main__":
    main()
