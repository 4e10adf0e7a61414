"""The words of a command: `python3 tools/model WORDS`, with standard streams."""

import os
import sys

sys.path[0] = os.path.dirname(os.path.dirname(os.path.abspath(__file__)))

from model.commands import main     # noqa: E402

if __name__ == '__main__':
    sys.exit(main(sys.argv[1:]))
