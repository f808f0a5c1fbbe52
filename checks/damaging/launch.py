"""Starts a program for each line of standard input, and tells how it ended.

A line has, with a NUL between each two, the seconds by the clock after which the program is ended, the path of its input, that of its
output, and the program with its words. What is told is a line of the status as `wait` gives it, the seconds of a processor that it took,
and the peak of its memory in KB. What the program writes to standard error goes into its output.

What the system tells of a child's peak begins with the memory of the process that it was forked from. So this one is small, and stays so.
"""
import os
import signal
import sys

NOT_STARTED = 127


def become(seconds, source, sink, words):
    """The program itself, which an alarm ends after so many seconds."""
    try:
        os.dup2(os.open(source, os.O_RDONLY), 0)
        os.dup2(os.open(sink, os.O_WRONLY | os.O_CREAT | os.O_TRUNC), 1)
        os.dup2(1, 2)
        signal.alarm(int(seconds))
        os.execv(words[0], words)
    finally:
        os._exit(NOT_STARTED)


def main():
    for line in sys.stdin.buffer:
        seconds, source, sink, *words = line.rstrip(b"\n").split(b"\0")
        child = os.fork()
        if child == 0:
            become(seconds, source, sink, words)
        _, status, usage = os.wait4(child, 0)
        print(status, usage.ru_utime + usage.ru_stime, usage.ru_maxrss, flush=True)


if __name__ == "__main__":
    main()
