"""What the commands of bin/ share."""

from __future__ import annotations

import os
import sys
from collections.abc import Callable
from typing import NoReturn

from lks.play import Failed


def obey(main: Callable[[], int]) -> NoReturn:
    """Runs a command to its status. A fault is one line and status 2; where nobody reads on, it ends quietly."""
    try:
        status = main()
        sys.stdout.flush()
    except BrokenPipeError:
        # what is left in the buffer goes nowhere
        os.dup2(os.open(os.devnull, os.O_WRONLY), sys.stdout.fileno())
        status = 0
    except (Failed, OSError, ValueError) as fault:
        print(f"{os.path.basename(sys.argv[0])}: {fault}", file=sys.stderr)
        status = 2
    sys.exit(status)
