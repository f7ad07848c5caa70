"""What every tool does with its arguments and with its reader."""

import argparse
import signal


def parser_of(description):
    """A parser that answers other arguments with the usage and status 2. A reader that leaves early ends the tool without a word."""
    signal.signal(signal.SIGPIPE, signal.SIG_DFL)
    return argparse.ArgumentParser(description=description, formatter_class=argparse.RawDescriptionHelpFormatter)
