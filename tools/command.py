"""What the commands events, explain and picture share: each says in one line what is wrong, with its own name before it."""
import argparse
import os
import sys


class Wrong(Exception):
    """What the user is told, in one line."""


class Arguments(argparse.ArgumentParser):
    """A wrong argument is one line, and status 2. No option can be shortened."""

    def __init__(self, prog, description, epilog):
        layout = argparse.RawDescriptionHelpFormatter
        super().__init__(prog=prog, description=description, epilog=epilog, formatter_class=layout, allow_abbrev=False)

    def error(self, message):
        self.exit(2, f"{self.prog}: {message.removeprefix('argument ')}; --help shows what is allowed\n")


def drop_output():
    """What is still buffered goes nowhere, or Python would complain of it at its end."""
    os.dup2(os.open(os.devnull, os.O_WRONLY), 1)


def carry_out(name, work):
    """Does the work of a command. What stops it is one line, and status 1; only Ctrl-C says nothing."""
    try:
        work()
    except Wrong as wrong:
        sys.exit(f"{name}: {wrong}")
    except BrokenPipeError:
        drop_output()
        sys.exit(f"{name}: nobody reads the output any more")
    except OSError as error:
        drop_output()
        sys.exit(f"{name}: cannot write: {error.strerror}")
    except KeyboardInterrupt:
        drop_output()
        sys.exit(130)
