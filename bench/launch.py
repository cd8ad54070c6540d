"""launch.py SECONDS OUT WORD..: runs a command within this much processor time, its output in the file OUT, and prints its status, its
seconds and its peak memory in kilobytes. It is a process of its own, since a peak counts what the process had that started the command."""
import os
import resource
import sys


def become(command: list[str], out: str, seconds: int) -> None:
    resource.setrlimit(resource.RLIMIT_CPU, (seconds, seconds))
    null = os.open(os.devnull, os.O_RDWR)
    file = os.open(out, os.O_WRONLY | os.O_CREAT | os.O_TRUNC, 0o644)
    for ours, theirs in ((null, 0), (file, 1), (null, 2)):
        os.dup2(ours, theirs)
    os.execvp(command[0], command)


def main() -> None:
    child = os.fork()
    if child == 0:
        try:
            become(sys.argv[3:], sys.argv[2], int(sys.argv[1]))
        finally:
            os._exit(127)
    _, status, used = os.wait4(child, 0)
    print(os.waitstatus_to_exitcode(status), used.ru_utime + used.ru_stime, used.ru_maxrss)


main()
