"""Prints the completion of subcommands, options and files for bash. zsh takes it
too, after `autoload -U bashcompinit && bashcompinit`."""

from __future__ import annotations

from argparse import ArgumentParser, Namespace

from .output import Output

EXAMPLE = '  eval "$(postman completion bash)"'


def add_arguments(parser: ArgumentParser) -> None:
    parser.add_argument("shell", choices=("bash",), help="the shell")


def run(args: Namespace, output: Output) -> int:
    output.raw(bash())
    return 0


def options_of(name: str) -> list[str]:
    """The long options of a subcommand."""
    from . import parser_of

    return [option for option in parser_of(name)._option_string_actions if option.startswith("--")]


def bash() -> str:
    """A function for bash: the subcommands first, then a subcommand's options, and files everywhere else."""
    from . import SUBCOMMANDS

    cases = [f"        {name}) words='{' '.join(options_of(name))}' ;;" for name in SUBCOMMANDS]
    return "\n".join(
        [
            "_postman() {",
            '    local word="${COMP_WORDS[COMP_CWORD]}" words=',
            "    COMPREPLY=()",
            '    if [ "$COMP_CWORD" -eq 1 ]; then',
            f"        COMPREPLY=($(compgen -W '{' '.join(SUBCOMMANDS)} --help --version' -- \"$word\"))",
            "        return",
            "    fi",
            '    case "${COMP_WORDS[1]}" in',
            *cases,
            "    esac",
            '    case "${COMP_WORDS[1]}:$word" in',
            "        completion:[!-]* | completion:) COMPREPLY=($(compgen -W 'bash' -- \"$word\")) ;;",
            '        *:-*) COMPREPLY=($(compgen -W "$words" -- "$word")) ;;',
            "    esac",
            "}",
            "complete -o default -F _postman postman",
            "",
        ]
    )
