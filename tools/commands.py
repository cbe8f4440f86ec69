# SPDX-License-Identifier: MIT
"""How the commands of bin/ read their arguments, and how they end.

Each command has --help and --version. If a command is interrupted (Ctrl-C), or if the reader of its
output has closed it, only the exit status says so. A file that cannot be opened causes one line on
standard error.

While `main` runs, the first interrupt raises KeyboardInterrupt. The signal itself ends a command at
the second one, and when `main` has not begun or has ended: then Python would print a traceback. So
a command begins, before its other imports, with

    if __name__ == "__main__" and signal.getsignal(signal.SIGINT) != signal.SIG_IGN:
        signal.signal(signal.SIGINT, signal.SIG_DFL)

The docstring of a command is its help. An installed command also has a man page that is made from
its help (command_manual.py). The first line is a sentence that says what the command does. After it
come paragraphs, lists, whose items are indented by two columns, and the list `Examples:`.
"""
import argparse
import os
import signal
import subprocess
import sys
from contextlib import contextmanager
from pathlib import Path

from tools.version import VERSION

# 128 and the numbers of SIGINT and SIGPIPE, as a shell reports a command that these ended.
INTERRUPTED, UNREAD = 130, 141
# A fault, and refused arguments, a path that cannot be read among them.
FAILED, REFUSED = 1, 2
STATUSES = {
    0: "success",
    FAILED: "a fault; standard error says which",
    REFUSED: "wrong arguments, or a file that cannot be read",
    INTERRUPTED: "interrupted, as by Ctrl-C",
    UNREAD: "the reader of standard output has closed it",
}


class Version(argparse.Action):
    """Prints the version, and ends the command."""

    def __call__(self, asked, *_):
        print(f"{asked.prog} {VERSION}")
        asked.exit()


class Reader(argparse.ArgumentParser):
    """Fails if its help cannot be written, unlike argparse, and reports wrong arguments in one
    line."""

    def print_help(self, file=None):
        print(self.format_help(), end="", file=file)

    def error(self, message):
        self.exit(REFUSED, f"{self.prog}: {message} (see {self.prog} --help)\n")


def reader(doc, statuses=None, **others):
    """Returns the parser of a command's arguments. Its help is the command's docstring. `statuses`
    has the statuses with another meaning than in other commands."""
    listed = "".join(f"\n  {it:<4} {meaning}"
                     for it, meaning in {**STATUSES, **(statuses or {})}.items())
    made = Reader(description=doc.rstrip(), epilog=f"exit status:{listed}",
                  formatter_class=argparse.RawDescriptionHelpFormatter, **others)
    made.add_argument("-V", "--version", action=Version, nargs=0,
                      help="show the version and exit")
    return made


def answer_help(doc, words, **others):
    """Ends a command that passes its arguments to another one, if they ask for help or for the
    version."""
    asked = [it for it in words if it in ("-h", "--help", "-V", "--version")]
    if asked:
        reader(doc, **others).parse_args(asked[:1])


def whole_number(least, most):
    """Returns a function that reads a number in this range, as the value of an option."""
    def value(text):
        is_number = text.isascii() and text.isdigit() and len(text) <= 20
        if not is_number or not least <= int(text) <= most:
            raise argparse.ArgumentTypeError(
                f"{text[:40]!r} is not a number from {least:,} to {most:,}")
        return int(text)
    return value


def seconds(most):
    """Returns a function that reads seconds, above 0 and at most a number, as the value of an
    option."""
    def value(text):
        found = float(text)
        if not 0 < found <= most:
            raise argparse.ArgumentTypeError(f"{text} is not above 0 and at most {most:,}")
        return found
    value.__name__ = "number of seconds"
    return value


def own_name():
    """The name by which the command was called."""
    return Path(sys.argv[0]).name


def say(text):
    """Prints a line on standard error."""
    print(f"{own_name()}: {text}", file=sys.stderr)


def reason(fault):
    """Returns the message of a system error, with the file if it concerns one."""
    return fault.strerror if fault.filename is None else f"{fault.filename}: {fault.strerror}"


def on_interrupt(handler):
    """Sets what an interrupt does, unless the command is to ignore it, as in a shell's background.
    """
    if signal.getsignal(signal.SIGINT) != signal.SIG_IGN:
        signal.signal(signal.SIGINT, handler)


def raise_once(*_):
    """Handles the first interrupt."""
    on_interrupt(signal.SIG_DFL)
    raise KeyboardInterrupt


@contextmanager
def uninterrupted():
    """An interrupt that comes while the block runs is handled at its end. It never comes to threads
    and processes that begin in the block."""
    usual = signal.pthread_sigmask(signal.SIG_BLOCK, ())
    try:
        signal.pthread_sigmask(signal.SIG_BLOCK, {signal.SIGINT})
        yield
    finally:
        signal.pthread_sigmask(signal.SIG_SETMASK, usual)


def ended(main, words):
    """Returns the exit status of a command, or the status for the exception that ends it."""
    try:
        on_interrupt(raise_once)
        return main(words)
    except SystemExit as end:
        return end.code
    except KeyboardInterrupt:
        return INTERRUPTED
    except BrokenPipeError:
        raise
    except OSError as fault:
        say(reason(fault))
        return FAILED if fault.filename is None else REFUSED
    except subprocess.CalledProcessError as fault:
        say(f"{Path(fault.cmd[0]).name} ended with status {fault.returncode}")
        return FAILED
    finally:
        on_interrupt(signal.SIG_DFL)


def write_no_more():
    """Drops output that was not written yet."""
    nowhere = os.open(os.devnull, os.O_WRONLY)
    for stream in (sys.stdout, sys.stderr):
        os.dup2(nowhere, stream.fileno())


def status_of(main, words):
    """Runs a command, and returns its exit status."""
    status = 0
    if sys.stderr is None:
        # print would write to standard output instead
        sys.stderr = open(os.devnull, "w")
    if sys.stdout is None:
        say("standard output is closed")
        return FAILED
    try:
        status = ended(main, words)
        sys.stdout.flush()
        sys.stderr.flush()
        return status
    except KeyboardInterrupt:
        status = INTERRUPTED
    except BrokenPipeError:
        status = status or UNREAD
    except OSError as fault:
        say(f"standard output: {reason(fault)}")
        status = FAILED
    write_no_more()
    return status
