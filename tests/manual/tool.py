"""The help of the program `tool`, and what `.ci/manual` makes of it."""

import importlib.machinery
import importlib.util
import pathlib
import sys

TOP = pathlib.Path(__file__).resolve().parent.parent.parent
sys.dont_write_bytecode = True
sys.path.append(str(TOP / ".ci"))
import man_page  # noqa: E402, F401

# The script, which has no extension.
LOADER = importlib.machinery.SourceFileLoader("manual", str(TOP / ".ci" / "manual"))
manual = importlib.util.module_from_spec(importlib.util.spec_from_loader("manual", LOADER))
LOADER.exec_module(manual)

# The help by the words of the command.
HELP = {
    "": """\
Look at boxes and fill them.

Usage: tool <COMMAND>

Commands:
  look     Look at a box, or [at] what's in it: "all" of \\it.
  box      List and fill boxes.
  far-off  Name $HOME commands.
  help     Print this message or the help of the given subcommand(s)

Options:
  -h, --help     Print help
  -V, --version  Print version

Terms:
  box    has things, e.g. \\n or
         'quoted' ones.
  a thing  isn't in this column.

Exit status:
  0  success.
  1  nothing found: see
     --all.

The words of this paragraph, which has two lines and an option (--help), are
filled. tool isn't 'tool --help'. These are options: --a-b, -c.
.A line that begins with a period.
""",
    "look": """\
Look at a box, or [at] what's in it: "all" of \\it.

Usage: tool look [OPTIONS] --into <DIR> <FILE> [PATH]...

Arguments:
  <FILE> [PATH]...  A box, and a path.

Options:
  -c, --colour <COLOUR>  Colour of it. Not of others. [default: red] [possible values: red, dark-red, blue]
      --into <DIR>       A folder, e.g. `out`. [default: the current one]
  -s, --size <SIZE>      It's [so]: "all" of \\it, 1:2 for $HOME.
      --all              Look at all
  -q                     Print nothing.
  -h, --help             Print help

JSON objects:
  --all      {"a":1}, and
             {"b":2}.
  --all two  {}

Examples:
  $ tool look photo.box
  \\a - 'b' ^ `c` ~
  .d
  ----------------------------------------''''''''''''''''''''.............

  $ tool look --into 'a folder with a long name, which no line can be broken in' photo.box || echo no
  {"key":"bafyreidl4puu5qgoyaxslyujtbdk5g7ps2j5jziwepjyktvekap6cpeeui","other":[]}
""",
    "box": """\
List and fill boxes.

Usage: tool box [OPTIONS] <FILE>...
       tool box <COMMAND>

Commands:
  put   Put things into a box.
  take  Take things.
  help  Print this message or the help of the given subcommand(s)

Arguments:
  <FILE>...  Boxes.

Options:
      --kind <KIND>  Kind. [possible values: wood, steel]
      --all          List all.
  -h, --help         Print help

Three columns are shown as they are:

  kind   weight  price
  wood   light   low
""",
    "box put": """\
Put things into a box.

Usage: tool box put [OPTIONS] <THING>

Arguments:
  <THING>
          A thing.

Options:
  -o, --output <BOX>
          The box.
      --a-long-name-for-an-option <THINGS>
          Things, on the next line as clap has it. [possible values: some, none]
  -h, --help
          Print help

Exit status:
  3  the box is full.
""",
    "box take": """\
Take things.

Usage: tool box take

Options:
  -h, --help  Print help
""",
    "far-off": """\
Name $HOME commands.

Usage: tool far-off <COMMAND>

Commands:
  one  The one.
  two  The other.

Options:
  -h, --help  Print help
""",
    "far-off one": "The one.\n\nUsage: tool far-off one\n\nOptions:\n  -h, --help  Print help\n",
    "far-off two": "The other.\n\nUsage: tool far-off two\n\nOptions:\n  -h, --help  Print help\n",
}

SCRIPT = """\
#!{python}
import sys
words = sys.argv[1:]
print("tool 1.2.3\\n" if words == ["--version"] else {help!r}[" ".join(words[:-1])], end="")
"""


def make(folder):
    """Makes the program in a folder, and its page and completions."""
    program = folder / "bin" / "tool"
    program.parent.mkdir()
    program.write_text(SCRIPT.format(python=sys.executable, help=HELP), encoding="utf-8")
    program.chmod(0o755)
    for name, text in manual.made(program, folder).items():
        path = folder / name.replace("ipld", "tool")
        path.parent.mkdir(exist_ok=True)
        path.write_text(text, encoding="utf-8")
