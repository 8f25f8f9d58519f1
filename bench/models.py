"""The models of tools/, which follow docs/RULES.md and docs/FORMATS.md, for the scripts of this folder."""

import pathlib
import sys

sys.path.append(str(pathlib.Path(__file__).resolve().parent.parent / "tools"))

import card  # noqa: E402, F401
import console  # noqa: E402, F401
import loads  # noqa: E402, F401
import orders  # noqa: E402, F401
import rebar  # noqa: E402, F401
import reference  # noqa: E402, F401
import search  # noqa: E402, F401
import stored  # noqa: E402, F401
