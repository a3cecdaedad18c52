"""A page that a script makes: written, or compared with what would be written. For modules.py and lines.py."""
import sys


def run(path, make, usage):
    """`make` gives the page from its present text. Without arguments it is written; with --check a difference is status 1."""
    with open(path, encoding="utf-8") as file:
        text = file.read()
    made = make(text)
    if sys.argv[1:] == ["--check"]:
        if text != made:
            sys.exit(f"{path} is not as {sys.argv[0]} makes it")
    elif sys.argv[1:]:
        sys.exit(usage)
    else:
        with open(path, "w", encoding="utf-8") as file:
            file.write(made)
