"""`python3 -m bitcol` runs the shell, and `python3 -m bitcol web` serves the page."""

import sys

if __name__ == "__main__":
    words = sys.argv[1:]
    if words[:1] == ["web"]:
        from .web.main import main

        words = words[1:]
    else:
        from .shell.main import main
    sys.exit(main(words))
