"""python3 command/tests: runs all tests of the command, and names each that is left out, with the reason.

Exit status: 0 none failed, 1 some did, or there is none."""
import os
import sys
import unittest

sys.dont_write_bytecode = True


def main():
    result = unittest.TextTestRunner().run(unittest.defaultTestLoader.discover(os.path.dirname(os.path.abspath(__file__))))
    for test, reason in result.skipped:
        print(f'left out: {test.id()} ({reason})')
    print(f'{result.testsRun - len(result.skipped)} tests ran, {len(result.skipped)} left out')
    return 0 if result.testsRun and result.wasSuccessful() else 1


if __name__ == '__main__':
    sys.exit(main())
