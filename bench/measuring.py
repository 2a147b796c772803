"""What the benchmarks share: numbers that are the same in each run, bundles written in pieces, and what one process took."""
import os
import sys


def numbers(count, below):
    """So many numbers below a bound, the same in each run."""
    number = 1
    for _ in range(count):
        number = (number * 6364136223846793005 + 1442695040888963407) % 2**64
        yield number // 2**32 % below


def write_bundle(path, head, lists):
    """Writes a bundle in pieces: what this process once held would count as its children's peak. `head` is all in front of
    the input; an entry of `lists` is a name with its numbers."""
    with open(path, "w") as file:
        file.write(head + "input {")
        for name, entries in lists:
            file.write(f" {name} =")
            for entry in entries:
                file.write(f" {entry}")
            file.write(";")
        file.write(" }\n")


def measure(command, path):
    """User seconds, peak bytes and exit status of a command on this file."""
    with open(path) as given, open(os.devnull, "w") as nothing:
        child = os.posix_spawn(
            command[0],
            command,
            os.environ,
            file_actions=[
                (os.POSIX_SPAWN_DUP2, given.fileno(), 0),
                (os.POSIX_SPAWN_DUP2, nothing.fileno(), 1),
                (os.POSIX_SPAWN_DUP2, nothing.fileno(), 2),
            ],
        )
        _, status, usage = os.wait4(child, 0)
    return usage.ru_utime, usage.ru_maxrss * 1024, os.waitstatus_to_exitcode(status)


def least(command, path):
    """The least user seconds of three runs, and the peak of the first."""
    runs = [measure(command, path) for _ in range(3)]
    return min(run[0] for run in runs), runs[0][1]


def least_accepted(command, path):
    """The same of a command that must end well."""
    if measure(command, path)[2] != 0:
        sys.exit(f"{sys.argv[0]}: the program refused its input")
    return least(command, path)
