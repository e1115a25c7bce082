"""How a program ends: without a traceback, and as a shell expects it of any program."""
import contextlib
import os
import signal
import sys

STANDARD = 3  # standard input, output and error have the first three numbers of files
WORDS, FAULT = 2, 3  # the exit statuses of wrong words, and of a fault of the machine


class Fault(Exception):
    """Something that ends the program with a line on standard error."""

    def __init__(self, text, status=1):
        super().__init__(text)
        self.status = status


def hold_standard_files():
    """Puts the null device in place of a standard file that is closed, so that no other file gets its number. The
    numbers of those that were closed."""
    closed = []
    for number in range(STANDARD):
        try:
            os.fstat(number)
        except OSError:
            closed.append(number)
            # it gets the lowest number that is free, which is this one
            os.set_inheritable(os.open(os.devnull, os.O_RDWR), True)
    sys.stdout = sys.stdout or open(1, "w", encoding="utf-8", closefd=False)
    sys.stderr = sys.stderr or open(2, "w", encoding="utf-8", closefd=False)
    return closed


def end_by(number):
    """Ends the program by a signal, as if it had never looked at it: a shell shows 128 and the signal's number."""
    with contextlib.suppress(OSError):
        os.dup2(os.open(os.devnull, os.O_WRONLY), 1)
    signal.signal(number, signal.SIG_DFL)
    os.kill(os.getpid(), number)


def no_words(usage):
    """A fault where words were given to a program that takes none."""
    if sys.argv[1:]:
        raise Fault(f"usage: {usage}", WORDS)


def standard_input():
    """Standard input as a file of bytes; a fault where it is closed."""
    if sys.stdin is None:
        raise Fault("standard input: closed", FAULT)
    return sys.stdin.buffer


def run(name, main):
    """Calls `main`, and ends the program with the status that it gives. Ctrl-C and a closed pipe end it silently, as
    they end a program that doesn't look at signals; a fault is a line after the program's name."""
    closed = hold_standard_files()
    try:
        if 1 in closed:
            raise Fault("standard output: closed", FAULT)
        status = main()
        sys.stdout.flush()
    except KeyboardInterrupt:
        end_by(signal.SIGINT)
    except BrokenPipeError:
        end_by(signal.SIGPIPE)
    except Fault as fault:
        status = tell(name, str(fault), fault.status)
    except OSError as fault:
        what = f"{fault.filename}: " if fault.filename else ""
        status = tell(name, f"{what}{fault.strerror or fault}", FAULT)
    except MemoryError:
        status = tell(name, "no memory", FAULT)
    sys.exit(status)


def tell(name, text, status):
    """Writes why the program ends; its status."""
    with contextlib.suppress(OSError, BrokenPipeError):
        sys.stdout.flush()
    with contextlib.suppress(OSError):
        print(f"{name}: {text}", file=sys.stderr, flush=True)
    return status
