"""The words of the scripts in this folder. `--smallest` alone asks for a run of seconds, on programs that are built, with everything checked but how long it took."""
import sys

IS_SMALLEST = sys.argv[1:] == ["--smallest"]


def numbers(usual, smallest):
    """The numbers that the words give, and behind these the usual ones; the smallest where these are asked for."""
    given = [] if IS_SMALLEST else [int(word) for word in sys.argv[1:]]
    return smallest if IS_SMALLEST else given + usual[len(given) :]
