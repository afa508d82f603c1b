"""
What the parts of CI need of the machine, by the table in needs.txt, and which of it is missing.
"""

import collections
import os
import pathlib
import re
import shutil
import subprocess
import sys
import tempfile

HERE = pathlib.Path(__file__).resolve().parent
TABLE = HERE / "needs.txt"
# The interpreter whose modules and headers the packages of Debian bring.
PYTHON = "/usr/bin/python3"
CRATES = pathlib.Path("/usr/share/cargo/registry")
LISTS = pathlib.Path("/var/lib/apt/lists")
HEADERS = pathlib.Path("/usr/include")
# Where no package has a tool.
WITHOUT_PACKAGE = {"rt": "put the folder bin of the kit on the PATH"}
NO_NETWORK = re.compile(
    r"Temporary failure resolving|Could not resolve|Could not connect|Network is unreachable|Unable to connect|Connection (?:failed|timed out|refused)"
)
# It leads to a toolchain of its own, and the packages of Rust replace it.
RUSTUP = "rustup"

Need = collections.namedtuple("Need", "tool package least parts")
# A need that the machine doesn't meet: `version` is the one that is there and too old, or None, and
# `advice` is what to do if no package helps.
Lack = collections.namedtuple("Lack", "tool package least version advice")


class NotInstalled(Exception):
    """Why the packages were not installed, as a sentence."""


def needs():
    """The rows of the table."""
    found = []
    for line in TABLE.read_text(encoding="utf-8").splitlines():
        words = line.partition("#")[0].split()
        if words:
            tool, package, least, *parts = words
            found.append(
                Need(
                    tool,
                    None if package == "-" else package,
                    None if least == "-" else least,
                    parts,
                )
            )
    return found


def all_parts():
    """The parts in the order in which the table names them."""
    return list(dict.fromkeys(part for need in needs() for part in need.parts))


def numbers(version):
    return tuple(map(int, version.split(".")))


def output(words):
    """What a command writes, or nothing if it fails."""
    try:
        ran = subprocess.run(
            words,
            stdout=subprocess.PIPE,
            stderr=subprocess.STDOUT,
            stdin=subprocess.DEVNULL,
            universal_newlines=True,
            errors="replace",
            timeout=60,
        )
    except (OSError, subprocess.SubprocessError):
        return ""
    return "" if ran.returncode else ran.stdout


def by_python(program):
    """What the interpreter of Debian prints, or nothing."""
    return output([PYTHON, "-c", program]).strip()


def is_there(tool):
    """Whether the machine has what is no command."""
    kind, _, name = tool.partition(":")
    if kind == "crate":
        return any(CRATES.glob(f"{name}-[0-9]*"))
    if kind == "python":
        return (
            by_python(
                f"import importlib.util; print(importlib.util.find_spec({name!r}) is not None)"
            )
            == "True"
        )
    folder = (
        by_python("import sysconfig; print(sysconfig.get_path('include'))")
        if name == "Python.h"
        else HEADERS
    )
    return bool(folder) and (pathlib.Path(folder) / name).is_file()


def owner(path):
    """The Debian package that a command is of, or None."""
    told = output(["dpkg", "-S", os.path.realpath(path)])
    return told.split(":")[0] if told else None


def lack(need):
    """What the machine lacks of a need, or None."""
    advice = None if need.package else WITHOUT_PACKAGE.get(need.tool, "install it")
    if ":" in need.tool:
        return (
            None if is_there(need.tool) else Lack(need.tool, need.package, need.least, None, advice)
        )
    # A user's PATH may lack the folders of the commands that are root's.
    path = shutil.which(
        need.tool, path=os.pathsep.join([os.environ.get("PATH", os.defpath), "/usr/sbin", "/sbin"])
    )
    if not path:
        return Lack(need.tool, need.package, need.least, None, advice)
    if not need.least:
        return None
    told = re.search(r"\d+(?:\.\d+)*", output([path, "--version"]))
    if told and numbers(told[0]) >= numbers(need.least):
        return None
    # What somebody installed by other means stays, and comes before a package's on the PATH.
    if owner(path) in (None, RUSTUP):
        advice = f"update {path}, which is not of a Debian package"
    return Lack(
        need.tool,
        None if advice else need.package,
        need.least,
        told[0] if told else "unknown",
        advice,
    )


def lacks(rows):
    """
    What the machine lacks of these rows. A tool in two rows counts once, in the greater version.
    """
    newest = {}
    for row in rows:
        if row.tool not in newest or numbers(row.least or "0") > numbers(
            newest[row.tool].least or "0"
        ):
            newest[row.tool] = row
    return [it for it in map(lack, newest.values()) if it]


def missing(parts):
    """What the machine lacks of what these parts need."""
    return lacks(need for need in needs() if set(need.parts) & set(parts))


def missing_tools(tools):
    """What the machine lacks of these tools, in the version that any part needs at least."""
    found = {}
    for need in reversed(needs()):
        found[need.tool] = need
    for tool in tools:
        if tool not in found:
            raise KeyError(tool)
    return lacks(found[tool] for tool in tools)


def packages(found):
    return sorted({it.package for it in found if it.package})


def command(found):
    """The command that installs the packages, for somebody to paste."""
    apt = "sudo apt-get" if os.geteuid() and shutil.which("sudo") else "apt-get"
    # On a new machine apt-get knows no package yet.
    update = "" if any(LISTS.glob("*_Packages*")) else f"{apt} update && "
    return f"{update}{apt} install --no-install-recommends {' '.join(packages(found))}"


def told(found):
    """The list of what is missing, and the command that installs it, as lines."""
    width = max(len(it.tool) for it in found)
    for it in found:
        name = f"{it.tool:{width}}  " + (f"package {it.package}" if it.package else it.advice)
        too_old = (
            f"version {it.version} is here, and {it.least} or later is needed"
            if it.version
            else f"version {it.least} or later"
            if it.least
            else ""
        )
        yield f"  {name}" + (f" ({too_old})" if too_old else "")
    if packages(found):
        if shutil.which("apt-get"):
            yield "To install the packages:"
            yield f"  {command(found)}"
        else:
            yield f"The packages are those of Debian 12, and this machine has no apt-get: install what it calls them ({' '.join(packages(found))})."


def as_root():
    """The words before a command that root has to run."""
    if os.geteuid() == 0:
        return []
    if not shutil.which("sudo"):
        raise NotInstalled(
            "only root can install packages, and there is no sudo here: run the command above as root"
        )
    # Nobody answers sudo's question for a password where there is no terminal.
    if (
        not sys.stdin.isatty()
        and subprocess.run(
            ["sudo", "-n", "true"], stdout=subprocess.DEVNULL, stderr=subprocess.DEVNULL
        ).returncode
    ):
        raise NotInstalled(
            "only root can install packages, and sudo asks for a password, which needs a terminal: run the command above as root"
        )
    return ["sudo"]


def install(found):
    """Installs the packages of what is missing. Otherwise raises NotInstalled with the reason."""
    if not packages(found):
        return
    if not shutil.which("apt-get"):
        raise NotInstalled(
            "this machine has no apt-get: install the packages above by its own means"
        )
    before = as_root() + ["env", "DEBIAN_FRONTEND=noninteractive", "LC_ALL=C", "apt-get"]
    # An old package of Debian may go for a newer one, and nothing else.
    stays = [] if any(it.version for it in found) else ["--no-remove"]
    with tempfile.NamedTemporaryFile(
        "w+", prefix="needs-", suffix=".log", errors="replace", delete=False
    ) as log:
        # An update that fails for some source is no failure yet: the packages may be of another
        # one.
        for words in (
            ["update", "-q"],
            ["install", "-yq", "--no-install-recommends", *stays, *packages(found)],
        ):
            print("+ apt-get " + " ".join(words), file=log, flush=True)
            status = subprocess.run(
                [*before, *words], stdin=subprocess.DEVNULL, stdout=log, stderr=subprocess.STDOUT
            ).returncode
        if not status:
            os.unlink(log.name)
            return
        log.seek(0)
        output = log.read()
        if NO_NETWORK.search(output):
            raise NotInstalled(
                f"apt-get can't reach the network, so nothing was installed: connect the machine and try again (the output of apt-get is in {log.name})"
            )
        # What apt-get can't install, and the packages that it names before that.
        reasons = re.findall(r"^(?:E: .*| \S+ : .*)", output, re.M)
        raise NotInstalled(
            f"apt-get failed, so not all was installed (its output is in {log.name}):"
            + "".join(f"\n  {it.strip()}" for it in reasons[:20])
        )


def ready(what, look, wants_install):
    """
    Whether nothing is missing of what `look` looks for; otherwise prints what is. With
    `wants_install` installs it first.
    """
    found = look()
    if found and wants_install and packages(found):
        try:
            print(f"needs: installing {' '.join(packages(found))}", flush=True)
            install(found)
        except NotInstalled as why:
            print(
                "\n".join(
                    [f"needs: this machine lacks, for {what}:", *told(found), f"needs: {why}"]
                ),
                flush=True,
            )
            return False
        found = look()
    if found:
        print("\n".join([f"needs: this machine lacks, for {what}:", *told(found)]), flush=True)
    return not found


def in_ci():
    """Whether this is CI's machine, on which packages are installed without a question."""
    return os.environ.get("CI") == "true"


def page():
    """The table as Markdown."""
    lines = ["| tool | Debian package | least version | needed by |", "|---|---|---|---|"]
    names = {
        "crate": "the crate `{}`",
        "python": "the Python module `{}`",
        "header": "the header `{}`",
    }
    for need in needs():
        kind, _, name = need.tool.partition(":")
        tool = names[kind].format(name) if name else f"`{need.tool}`"
        lines.append(
            f"| {tool} | {f'`{need.package}`' if need.package else 'none: it is in the kit'} | {need.least or ''} | {', '.join(need.parts)} |"
        )
    return "\n".join(lines) + "\n"
