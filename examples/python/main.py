"""Prints the normal text of each grammar file that is named, or why it has none.

    main.py LIBRARY FILE ..

Status: 0 if all have one, 1 if some are refused, 2 if some cannot be read or the output cannot be written.
"""

import sys

from hemvuda import LONGEST, Hemvuda, Refusal


def main():
    if len(sys.argv) < 2:
        print(__doc__.strip(), file=sys.stderr)
        return 2
    hemvuda = Hemvuda(sys.argv[1])
    status = 0
    for name in sys.argv[2:]:
        try:
            with open(name, "rb") as file:
                # One byte more than a text may have, so that a longer one is refused with 1 and not cut.
                text = file.read(LONGEST + 1)
            sys.stdout.buffer.write(hemvuda.normal_text(text))
        except Refusal as refusal:
            print(f"{name}: {refusal}", file=sys.stderr)
            status = max(status, 1)
        except OSError as error:
            print(f"{name}: {error.strerror}", file=sys.stderr)
            status = 2
    sys.stdout.flush()
    return status


if __name__ == "__main__":
    sys.exit(main())
