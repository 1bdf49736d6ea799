"""The two modes in which sites run: with histories that are logged, and with none."""
import collections

Mode = collections.namedtuple("Mode", "is_logged more audit ending")
LOGGED = Mode(True, "", "sound", "")
UNLOGGED = Mode(False, "audit = false", "skipped", "_without_a_history")
MODES = (LOGGED, UNLOGGED)


def in_mode(function, mode):
    """A test in one mode, which it is handed last: whether histories are logged, the line for the file, and the word of a whole audit."""

    def run(*tools):
        function(*tools, mode)

    run.__name__ = function.__name__ + mode.ending
    return run


def in_both(tests):
    """Adds a test to these in each mode."""

    def added(function):
        tests.extend(in_mode(function, mode) for mode in MODES)
        return function

    return added
