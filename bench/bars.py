"""What a measurement has to keep to: its bars, which are printed, and the status that a missed one ends with."""

import shutil
import sys

# The bars that were missed.
missed = []


def show_bar(what, met):
    """Prints a bar, and keeps in mind that it was missed."""
    print(f"  {'met' if met else 'MISSED'}: {what}", flush=True)
    if not met:
        missed.append(what)


def has_tool(tool, without):
    """Whether a tool is installed; where it isn't, prints what is left out."""
    if shutil.which(tool):
        return True
    print(f"{tool} is not installed: {without}", flush=True)
    return False


def end():
    """Ends the program, with status 1 where a bar was missed."""
    sys.exit(1 if missed else 0)
