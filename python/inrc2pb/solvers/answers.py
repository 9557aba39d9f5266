"""What solvers of linear programs answer."""

from ..week.faults import Misuse

# The faults in a row after which another solver is used.
MAX_FAULTS = 3
# An answer beyond it is none.
MAX_VALUE = 1e15


class SolverFault(Misuse):
    """A solver that crashed, or whose answer cannot be read."""
