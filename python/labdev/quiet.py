"""Runs tests of python/tests, and prints what is wrong and what is passed over, and nothing else.

    cd python && python3 -m labdev.quiet tests.test_where [-k WORD]

It takes the words of unittest: modules, classes or tests by their names, and `-k`.
"""
import io
import sys
import unittest


def main() -> None:
    told = io.StringIO()
    runner = unittest.TextTestRunner(stream=told, verbosity=0)
    result = unittest.main(module=None, exit=False, testRunner=runner, buffer=True).result
    # ./test looks for these lines. A cause is `WHAT, without PROGRAM`.
    for cause in dict.fromkeys(cause for _, cause in result.skipped):
        print(f"passed over: {cause}")
    is_well = result.wasSuccessful() and result.testsRun > 0
    if not is_well:
        print(told.getvalue(), end="")
    sys.exit(0 if is_well else 1)


if __name__ == "__main__":
    main()
