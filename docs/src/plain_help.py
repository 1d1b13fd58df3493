"""The answer to --help, for every file of this folder: what the file says of itself at its top, and exit status 0."""

import sys


def answer_help(text):
    if set(sys.argv[1:]) & {"-h", "--help"}:
        print(text.strip())
        sys.exit(0)


if __name__ == "__main__":
    print(__doc__)
