"""Tests of `.ci/manual`, which makes the man page and the completions of `ipld` from its help.

    python3 -m unittest tests.manual.test_page tests.manual.test_completions

Run them at the top of the repository. `tool.py` has the help of another program, with the forms
that clap and our help texts can have. `capture.zsh` writes what zsh completes to a file.
"""
