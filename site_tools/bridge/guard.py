"""What the scripts say where a file is more than they can read: one line and status 2, and no traceback."""
import sys
from typing import Callable


def guarded(name: str, main: Callable[[], int]) -> int:
    """Runs a script's `main`."""
    try:
        return main()
    except RecursionError:
        print(f"{name}: a file nests too deep", file=sys.stderr)
    except MemoryError:
        print(f"{name}: not enough memory", file=sys.stderr)
    except UnicodeError as fault:
        print(f"{name}: a file that is no UTF-8: {fault}", file=sys.stderr)
    except BrokenPipeError:
        sys.stderr.close()
    except OSError as fault:
        print(f"{name}: {fault}", file=sys.stderr)
    except KeyboardInterrupt:
        print(f"{name}: stopped", file=sys.stderr)
        return 130
    return 2
