"""Opens a list for trying closings and costs, at a prompt or with commands from
standard input. `help` lists the commands. The list itself is not changed;
`save` writes a new one. Commands from a file end at the first that fails."""

from __future__ import annotations

import io
import sys
from argparse import ArgumentParser, Namespace

from .editor import Editor
from .options import add_budget, add_list, opened
from .output import Output
from .refused import explained

EXAMPLE = """\
  postman edit town/streets.csv
  printf 'ask\\nclose Old Bridge\\nask\\n' | postman edit town/streets.csv"""


def add_arguments(parser: ArgumentParser) -> None:
    add_list(parser)
    add_budget(parser, "as many as half a second allows")
    parser.add_argument("--windows", metavar="CSV", help="when streets are shut, for the command at")


def run(args: Namespace, output: Output) -> int:
    streets = opened(args)
    with explained(streets):
        editor = Editor(streets, args.windows, args.budget, output)
    return at_prompt(editor) if sys.stdin.isatty() else from_lines(editor)


def at_prompt(editor: Editor) -> int:
    """A session at a terminal: what fails is said, and the session goes on."""
    complete(editor)
    editor.careful = True
    editor.output.note(f"{editor.streets.path} is open; help lists the commands, quit ends")
    while not editor.ended:
        try:
            line = input("postman> ")
        except EOFError:
            print()
            line = "quit"
        except KeyboardInterrupt:
            print()
            continue
        failed = editor.obey(line)
        if failed is not None:
            print(failed, file=sys.stderr)
    return 0


def from_lines(editor: Editor) -> int:
    """Commands from standard input: the first that fails ends the session with its status."""
    from . import complain

    # Letters that are no UTF-8 are in no street's name, and the command that has them says so.
    if isinstance(sys.stdin, io.TextIOWrapper):
        sys.stdin.reconfigure(errors="replace")
    for number, line in enumerate(sys.stdin, 1):
        failed = editor.obey(line)
        if failed is not None:
            return complain(f"postman: line {number}: {failed}", failed.status)
        if editor.ended:
            break
    return 0


def complete(editor: Editor) -> None:
    """The tab key completes commands and street names, where Python has readline."""
    try:
        import readline
    except ImportError:
        return
    readline.set_completer_delims("")
    readline.set_completer(lambda text, state: dict(enumerate(editor.completions(text))).get(state))
    readline.parse_and_bind("tab: complete")
