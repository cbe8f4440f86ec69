# SPDX-License-Identifier: MIT
"""The completion of the installed commands in bash: options, their values, and files, made of the
parsers of their arguments (command_manual.py).

`completion()` returns a file that bash sources. bash-completion does so by itself for a command if
its folder of completions has the file under the name of that command.
"""
import argparse

from tools.command_manual import commands

# What stands for a file in help.
FILES = ("FILE", "PATH")
# Files are completed by `-o default`, which is taken away if a value is no file.
FORM = """\
# SPDX-License-Identifier: MIT
# Completion in bash for {names}

_rrcache() {{
    local word=${{COMP_WORDS[COMP_CWORD]}} before=${{COMP_WORDS[COMP_CWORD - 1]}}
    local command=${{COMP_WORDS[0]##*/}} options values choices
    # bash has the = of --option=value as a word of its own
    if [[ $word == = ]]; then
        word=
    elif [[ $before == = ]]; then
        before=${{COMP_WORDS[COMP_CWORD - 2]}}
    fi
    case $command in
{commands}
    esac
    case $command:$before in
{choices}
    esac
    if [[ $choices ]]; then
        mapfile -t COMPREPLY < <(compgen -W "$choices" -- "$word")
    elif [[ " $values " == *" $before "* ]]; then
        compopt +o default 2>/dev/null
    elif [[ $word == -* ]]; then
        mapfile -t COMPREPLY < <(compgen -W "$options" -- "$word")
    fi
}}

complete -o default -F _rrcache {names}
"""
COMMAND = """\
        {name})
            options="{options}"
            values="{values}"
            ;;
"""
CHOICES = """\
        {name}:{option}) choices="{choices}" ;;
"""


def options_of(command):
    """The options of a command that its help shows."""
    return [it for it in command.reader._actions
            if it.option_strings and it.help != argparse.SUPPRESS]


def names_of(options):
    """All names of options, in a line."""
    return " ".join(name for it in options for name in it.option_strings)


def completion():
    """The file for bash."""
    found, of_commands, choices = commands(), "", ""
    for command in found:
        options = options_of(command)
        values = [it for it in options
                  if it.nargs != 0 and not it.choices and it.metavar not in FILES]
        of_commands += COMMAND.format(name=command.name, options=names_of(options),
                                      values=names_of(values))
        choices += "".join(CHOICES.format(name=command.name, option=name,
                                          choices=" ".join(it.choices))
                           for it in options if it.choices for name in it.option_strings)
    return FORM.format(names=" ".join(it.name for it in found), commands=of_commands.rstrip("\n"),
                       choices=choices.rstrip("\n"))
