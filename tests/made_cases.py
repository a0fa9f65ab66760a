"""The cases of tests/cases, and behind them those that are too many or too long to be written down: scripts make them,
and say what each has to do."""

from case_files import read_cases, without_namesakes
from forged_cases import forged_cases
from nested_cases import nested_cases


def all_cases():
    """All cases, and a line for each fault in them."""
    cases, faults = read_cases()
    return without_namesakes([*cases, *forged_cases(), *nested_cases()], faults), faults
