"""Notes of the scripts, which go to standard error."""
import sys


def tell_text(text: str) -> None:
    """Writes to standard error, if there is one."""
    try:
        if sys.stderr is not None:
            sys.stderr.write(text)
            sys.stderr.flush()
    except OSError:
        pass


def tell(script: str, text: str) -> None:
    """Says a line to standard error in the name of a script."""
    tell_text(f"{script}: {text}\n")
