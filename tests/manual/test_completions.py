"""Tests the completions that `.ci/manual` makes, in bash, zsh and fish.

usage: python3 -m unittest tests.manual.test_completions

Those of the program `tool` (tool.py) are tested in detail. Those of `ipld` in completions/ have to
be the same in the three shells, and to have all commands of docs/ipld.1. It needs bash, zsh and
fish. zsh, and bash where readline completes files, run in a terminal.
"""

import contextlib
import os
import pathlib
import pty
import re
import select
import shutil
import subprocess
import tempfile
import unittest

from tests.manual import tool

SECONDS_FOR_A_SHELL = 60
CAPTURE = pathlib.Path(__file__).resolve().parent / "capture.zsh"

# What there is where a line is completed.
FILES, FOLDERS = {"photo.box", "my thing"}, {"photos"}

# What is completed after a line, if it is no file.
LOOK = {"-c", "--colour", "--into", "-s", "--size", "--all", "-q", "-h", "--help"}
COLOURS = {"red", "dark-red", "blue"}
COMPLETED = {
    "tool ": {"look", "box", "far-off"},
    "tool f": {"far-off"},
    "tool -": {"-h", "--help", "-V", "--version"},
    "tool --v": {"--version"},
    "tool look -": LOOK,
    "tool look --": {it for it in LOOK if it.startswith("--")},
    "tool look photo.box -": LOOK,
    "tool look --colour ": COLOURS,
    "tool look --colour d": {"dark-red"},
    "tool look -c ": COLOURS,
    "tool look --colour=": COLOURS,
    "tool look --colour=b": {"blue"},
    "tool look -c red --al": {"--all"},
    "tool look --size box --al": {"--all"},
    "tool look photo.box -c ": COLOURS,
    "tool box pu": {"put"},
    "tool box -": {"--kind", "--all", "-h", "--help"},
    "tool box --kind ": {"wood", "steel"},
    "tool box --kind wood ta": {"take"},
    "tool box photo.box --k": {"--kind"},
    "tool box put --a": {"--a-long-name-for-an-option"},
    "tool box put --a-long-name-for-an-option ": {"some", "none"},
    "tool box take -": {"-h", "--help"},
    "tool far-off ": {"one", "two"},
    "tool far-off two -": {"-h", "--help"},
}
# The lines after which nothing is completed, except options by zsh.
TAKE_NOTHING = ("tool box take ", "tool far-off two ")
# The lines after which all files are completed, and those after which only folders are.
TAKE_FILES = (
    "tool look ",
    "tool look photo.box ",
    "tool look --size ",
    "tool look -s ",
    "tool look -- ",
    "tool box photo.box ",
    "tool box put ",
    "tool box put -o ",
)
TAKE_FOLDERS = ("tool look --into ", "tool look --into=")
DESCRIPTIONS = {
    "tool ": {
        "look": 'Look at a box, or [at] what\'s in it: "all" of \\it',
        "box": "List and fill boxes",
        "far-off": "Name $HOME commands",
    },
    "tool look --": {
        "--colour": "Colour of it",
        "--into": "A folder, e.g. `out`",
        "--size": 'It\'s [so]: "all" of \\it, 1:2 for $HOME',
        "--all": "Look at all",
    },
}
# What readline makes of a line in bash when the tab key is pressed.
BY_READLINE = {
    "tool l": "tool look ",
    "tool look m": "tool look my\\ thing ",
    "tool look photo.": "tool look photo.box ",
    "tool look --size m": "tool look --size my\\ thing ",
    "tool look --into p": "tool look --into photos/",
    "tool look --into=p": "tool look --into=photos/",
    "tool look --into m": "tool look --into m",
    "tool look --colour=d": "tool look --colour=dark-red ",
    "tool look --colour m": "tool look --colour m",
    "tool box pu": "tool box put ",
    "tool box m": "tool box my\\ thing ",
    "tool far-off two m": "tool far-off two m",
    "tool m": "tool m",
}


def run(words, folder, **more):
    """Runs a shell, which has to end without an error, and returns what it prints."""
    ran = subprocess.run(
        words,
        cwd=folder / "room",
        env=environment(folder, **more),
        stdin=subprocess.DEVNULL,
        stdout=subprocess.PIPE,
        stderr=subprocess.PIPE,
        encoding="utf-8",
        timeout=SECONDS_FOR_A_SHELL,
    )
    if ran.returncode or ran.stderr:
        raise AssertionError(f"{words}: status {ran.returncode}: {ran.stderr}")
    return ran.stdout


def environment(folder, **more):
    """Returns the environment of a shell whose home is an empty folder."""
    path = f"{folder / 'bin'}:{os.environ.get('PATH', os.defpath)}"
    return {"HOME": str(folder / "home"), "PATH": path, "TERM": "dumb", "LC_ALL": "C.UTF-8", **more}


def run_in_terminal(words, prompt, typed, folder, **more):
    """Runs a shell in a terminal, in which a text is typed once the prompt is there."""
    terminal, end = pty.openpty()
    with subprocess.Popen(
        words,
        cwd=folder / "room",
        env=environment(folder, **more),
        stdin=end,
        stdout=end,
        stderr=end,
        start_new_session=True,
    ) as running:
        os.close(end)
        shown = b""
        # An error of the terminal is the end of the shell.
        with contextlib.suppress(OSError):
            while select.select([terminal], [], [], SECONDS_FOR_A_SHELL)[0]:
                shown += os.read(terminal, 4096)
                if typed and prompt in shown:
                    os.write(terminal, typed)
                    typed = b""
        running.kill()
    os.close(terminal)
    return shown.decode(errors="replace")


def answers(text):
    """Returns the completions of each line, with their descriptions."""
    found = {}
    for line in text.splitlines():
        if line.startswith("= "):
            found[line[2:]] = {}
        elif found:
            name, _, description = line.partition("\t")
            found[list(found)[-1]].setdefault(name.rstrip("/"), description)
    return found


def by_bash(folder, program, lines):
    """Returns what the function for bash completes. Files are readline's."""
    script = (
        'source "$1"; shift; function=_$1; COMP_WORDS=("$@"); COMP_CWORD=$(($# - 1)); '
        '"$function"; printf "%s\\n" "${COMPREPLY[@]}"'
    )
    path, found = folder / "completions" / f"{program}.bash", {}
    for line in lines:
        words = re.findall(r"=|[^\s=]+", line) + [""] * line.endswith(" ")
        shell = ["bash", "--norc", "--noprofile", "-c", script, "bash", path, *words]
        found[line] = dict.fromkeys(filter(None, run(shell, folder).split("\n")))
    return found


def by_readline(folder, program, lines):
    """Returns what bash makes of lines when the tab key is pressed."""
    path, startup = folder / "answers", folder / "startup"
    startup.write_text(
        f"source {folder}/completions/{program}.bash\nbind 'set bell-style none'\n"
        """bind -x '"\\C-o": printf "= %s\\n" "$READLINE_LINE" >> "$ANSWERS"'\nPS1='ready> '\n"""
    )
    shell = ["bash", "--noprofile", "--rcfile", startup, "-i"]
    typed = "".join(f"{it}\t\x0f\x15" for it in lines) + "exit\n"
    shown = run_in_terminal(shell, b"ready> ", typed.encode(), folder, ANSWERS=str(path))
    if not path.is_file():
        raise AssertionError(f"bash completes nothing: {shown}")
    return dict(zip(lines, (it[2:] for it in path.read_text().split("\n"))))


def by_zsh(folder, program, lines):
    """Returns what zsh completes."""
    path = folder / "answers"
    path.write_text("")
    more = {"COMPLETIONS": str(folder / "completions"), "ANSWERS": str(path)}
    more["QUESTIONS"] = "\n".join(lines)
    typed = f"source {CAPTURE}\n".encode()
    shown = run_in_terminal(["zsh", "-f", "-i"], b"", typed, folder, **more)
    found = answers(path.read_text(encoding="utf-8"))
    if list(found) != list(lines):
        raise AssertionError(f"zsh answers {list(found)}: {shown}")
    return found


def by_fish(folder, program, lines):
    """Returns what fish completes. After `=` it has the option in each word."""
    script = 'source $argv[1]; for it in $argv[2..-1]; echo "= $it"; complete -C "$it"; end'
    path = folder / "completions" / f"{program}.fish"
    found = answers(run(["fish", "--no-config", "-c", script, path, *lines], folder))
    for line, words in found.items():
        if "=" in line:
            option = line.rpartition(" ")[2].partition("=")[0] + "="
            found[line] = {it.replace(option, "", 1): text for it, text in words.items()}
    return found


class Completions(unittest.TestCase):
    """A folder with the completions of a program, and with files in which lines are completed."""

    program = None
    maxDiff = None

    def setUp(self):
        folder = tempfile.TemporaryDirectory()
        self.addCleanup(folder.cleanup)
        self.folder = pathlib.Path(folder.name)
        for name in ("home", "room", *(f"room/{it}" for it in FOLDERS)):
            (self.folder / name).mkdir()
        for name in FILES:
            (self.folder / "room" / name).touch()

    def completed(self, by_shell, lines):
        """Returns the words that a shell completes after each of these lines."""
        found = by_shell(self.folder, self.program, lines)
        return {line: set(words) for line, words in found.items()}


class OfTool(Completions):
    """The completions of the program `tool`."""

    program = "tool"

    def setUp(self):
        super().setUp()
        tool.make(self.folder)

    def test_words(self):
        for by_shell in (by_bash, by_zsh, by_fish):
            with self.subTest(by_shell.__name__):
                self.assertEqual(self.completed(by_shell, COMPLETED), COMPLETED)

    def test_files(self):
        nothing = dict.fromkeys(TAKE_FILES, set())
        self.assertEqual(self.completed(by_bash, TAKE_FILES), nothing)
        for by_shell in (by_zsh, by_fish):
            with self.subTest(by_shell.__name__):
                found = self.completed(by_shell, TAKE_FILES)
                self.assertEqual(found, dict.fromkeys(TAKE_FILES, FILES | FOLDERS))
                found = self.completed(by_shell, TAKE_FOLDERS)
                self.assertEqual(found, dict.fromkeys(TAKE_FOLDERS, FOLDERS))

    def test_nothing(self):
        for by_shell, expected in ((by_bash, set()), (by_zsh, {"-h", "--help"}), (by_fish, set())):
            with self.subTest(by_shell.__name__):
                found = self.completed(by_shell, TAKE_NOTHING)
                self.assertEqual(found, dict.fromkeys(TAKE_NOTHING, expected))

    def test_commands_and_files(self):
        line = "tool box "
        expected = {"put", "take"}
        self.assertEqual(self.completed(by_bash, [line]), {line: expected})
        for by_shell in (by_zsh, by_fish):
            with self.subTest(by_shell.__name__):
                found = self.completed(by_shell, [line])
                self.assertEqual(found, {line: expected | FILES | FOLDERS})

    def test_descriptions(self):
        for by_shell in (by_zsh, by_fish):
            found = by_shell(self.folder, self.program, DESCRIPTIONS)
            for line, words in DESCRIPTIONS.items():
                for word, description in words.items():
                    with self.subTest(by_shell.__name__, line=line, word=word):
                        self.assertIn(description, found[line][word])

    def test_readline(self):
        self.assertEqual(by_readline(self.folder, self.program, BY_READLINE), BY_READLINE)


class OfIpld(Completions):
    """The completions of `ipld`, as they are in the repository."""

    program = "ipld"

    def setUp(self):
        super().setUp()
        shutil.copytree(tool.TOP / "completions", self.folder / "completions")
        (self.folder / "bin").mkdir()
        (self.folder / "bin" / "ipld").touch(0o755)

    def commands(self):
        """Returns the commands that bash completes."""
        found = ["ipld"]
        for it in found:
            line = f"{it} "
            found += [line + word for word in by_bash(self.folder, "ipld", [line])[line]]
        return found

    def test_syntax(self):
        for shell, name in (("bash", "ipld.bash"), ("zsh", "_ipld"), ("fish", "ipld.fish")):
            run([shell, "-n", self.folder / "completions" / name], self.folder)

    def test_page(self):
        page = (tool.TOP / "docs" / "ipld.1").read_text(encoding="utf-8")
        part = re.search(r"^\.Sh COMMANDS\n(.*?)^\.Sh ", page, re.M | re.S)[1]
        in_page = ["ipld", *(f"ipld {it}" for it in re.findall(r"^\.Ss (.*)$", part, re.M))]
        self.assertCountEqual(self.commands(), in_page)

    def test_shells(self):
        options = [f"{it} -" for it in self.commands()]
        words = [f"{it} " for it in self.commands()]
        for by_shell in (by_zsh, by_fish):
            with self.subTest(by_shell.__name__):
                found = self.completed(by_shell, options)
                self.assertEqual(found, self.completed(by_bash, options))
                # Without an argument or a command zsh completes options.
                for line, those in self.completed(by_shell, words).items():
                    found[line] = {it for it in those - FILES - FOLDERS if it[0] != "-"}
                self.assertEqual(found, self.completed(by_bash, options + words))


if __name__ == "__main__":
    unittest.main()
