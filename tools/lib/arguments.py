"""Reads the arguments of a tool."""

import argparse
import signal


class Parser(argparse.ArgumentParser):
    def print_help(self, file=None):
        # If nobody reads it, the tool ends without a word.
        signal.signal(signal.SIGPIPE, signal.SIG_DFL)
        super().print_help(file)


def parser(about):
    """Returns a parser of arguments, whose `--help` prints what the tool says about itself: `parser(__doc__)`."""
    return Parser(description=about, formatter_class=argparse.RawDescriptionHelpFormatter, allow_abbrev=False)
