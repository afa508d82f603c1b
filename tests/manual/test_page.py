"""Tests the man page that `.ci/manual` makes.

usage: python3 -m unittest tests.manual.test_page

It needs mandoc. Most tests look at the page of the program `tool` (tool.py).
"""

import pathlib
import re
import subprocess
import tempfile
import unittest

from tests.manual import tool

SECTIONS = [
    "NAME",
    "SYNOPSIS",
    "DESCRIPTION",
    "COMMANDS",
    "OPTIONS",
    "EXIT STATUS",
    "EXAMPLES",
    "SEE ALSO",
]
SYNOPSIS = """\
     tool look [options] --into DIR FILE [PATH ...]
     tool box [options] FILE ...
     tool box put [options] THING
     tool box take
     tool far-off one
     tool far-off two
"""
# Parts of the page as it is shown.
SHOWN = {
    "a summary without its period": "     tool – look at boxes and fill them\n",
    "the options and the program in a paragraph": """\
     The words of this paragraph, which has two lines and an option (--help),
     are filled.  tool isn't 'tool --help'.  These are options: --a-b, -c.  .A
     line that begins with a period.
""",
    "a list": """\
     JSON objects:
     --all   {"a":1}, and {"b":2}.
     --all two
             {}
""",
    "lines that aren't a list": """\
       box    has things, e.g. \\n or
              'quoted' ones.
       a thing  isn't in this column.
""",
    "a display": """\
     Three columns are shown as they are:

       kind   weight  price
       wood   light   low
""",
    "the options of a command": """\
     -c, --colour COLOUR
             Colour of it.  Not of others.  The default is red.  The possible
             values are red, dark-red and blue.
""",
    "an option with its help on the next line": """\
     --a-long-name-for-an-option THINGS
             Things, on the next line as clap has it.  The possible values are
             some and none.
""",
    "the options of all commands": """\
     Every command also has these options:

     -h, --help
             Print help.

     Without a command, tool has these options:
""",
    "the status of a single command": """\
     Of tool box put:
     3  the box is full.
""",
    "examples, with characters of roff and long lines": """\
       $ tool look photo.box
       \\a - 'b' ^ `c` ~
       .d
       ----------------------------------------''''''''''''''''''''.............

       $ tool look --into \\
           'a folder with a long name, which no line can be broken in' \\
           photo.box || echo no
       {"key":"bafyreidl4puu5qgoyaxslyujtbdk5g7ps2j5jziwepjyktvekap6cpeeui",
           "other":[]}
""",
}


def mandoc(path, *options):
    """Returns what mandoc prints, without the backspaces of bold and underlined letters."""
    words = ["mandoc", *options, path]
    ran = subprocess.run(words, stdout=subprocess.PIPE, encoding="utf-8", timeout=60)
    return re.sub(".\b", "", ran.stdout)


class Page(unittest.TestCase):
    """The page of `tool`."""

    maxDiff = None

    @classmethod
    def setUpClass(cls):
        folder = tempfile.TemporaryDirectory()
        cls.addClassCleanup(folder.cleanup)
        cls.folder = pathlib.Path(folder.name)
        tool.make(cls.folder)
        cls.path = cls.folder / "docs" / "tool.1"
        cls.source = cls.path.read_text(encoding="utf-8")
        cls.shown = mandoc(cls.path, "-Tutf8")

    def test_sections(self):
        self.assertEqual(re.findall(r"^\.Sh (.*)$", self.source, re.M), SECTIONS)

    def test_synopsis(self):
        found = re.search(r"^SYNOPSIS\n(.*?)\n^DESCRIPTION", self.shown, re.M | re.S)
        self.assertEqual(found[1], SYNOPSIS)

    def test_parts(self):
        for name, text in SHOWN.items():
            with self.subTest(name):
                self.assertIn(text, self.shown)

    def test_warnings(self):
        self.assertEqual(mandoc(self.path, "-Tlint", "-W", "warning"), "")

    def test_columns(self):
        for line in (self.source + self.shown).splitlines():
            self.assertLessEqual(len(line), 80, line)

    def test_date(self):
        """The date of a page stays if nothing else differs."""
        path = self.folder / tool.manual.PAGE
        program = self.folder / "bin" / "tool"
        dated = re.sub(r"^\.Dd .*", ".Dd May 1, 2020", self.source, flags=re.M)
        path.write_text(dated, encoding="utf-8")
        made = tool.manual.made(program, self.folder)[tool.manual.PAGE]
        self.assertEqual(made, dated)
        path.write_text(dated.replace("success", "nothing"), encoding="utf-8")
        made = tool.manual.made(program, self.folder)[tool.manual.PAGE]
        self.assertEqual(made, self.source)

    def test_check(self):
        """--check prints each file that differs, with the command that makes it."""
        program = self.folder / "bin" / "tool"
        words = [tool.TOP / ".ci" / "manual", "--check", program]
        ran = subprocess.run(words, stdout=subprocess.PIPE, encoding="utf-8", timeout=60)
        self.assertEqual(ran.returncode, 1)
        names = (
            "docs/ipld.1",
            "completions/ipld.bash",
            "completions/_ipld",
            "completions/ipld.fish",
        )
        for name in names:
            self.assertIn(f"{name} differs from the help of {program}: ", ran.stdout)
        self.assertIn(f"run .ci/manual {program}\n", ran.stdout)


class Lines(unittest.TestCase):
    """The lines of displays: those that are too long are folded."""

    def test_lines(self):
        a, b, c = "a" * 30, "b" * 30, "c" * 90
        for line, expected in (
            ("$ ipld show photo", ["$ ipld show photo"]),
            (f"$ x {a} | y {b} && z", [f"$ x {a} | y {b} \\", "    && z"]),
            (f"$ x '{a} | {b}' '{a}'", [f"$ x '{a} | {b}' \\", f"    '{a}'"]),
            (f"  {a} {b} {a}", [f"  {a} {b}", f"      {a}"]),
            (f'{{"{a}":"{b}","{a}":1}}', [f'{{"{a}":"{b}",', f'    "{a}":1}}']),
            (c, [c[:73], f"    {c[73:]}"]),
        ):
            with self.subTest(line):
                self.assertEqual(list(tool.man_page.folded(line)), expected)

    def test_no_room(self):
        with self.assertRaises(tool.man_page.NotMade):
            list(tool.man_page.folded(f"$ x '{'a ' * 50}'"))


if __name__ == "__main__":
    unittest.main()
