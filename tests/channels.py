"""Pipes that give few bytes at once, and files that may hold no more than so many."""
import fcntl
import os
import resource
import select
import signal
import struct
import termios
import threading


def give(pipe: int, data: bytes, most: int) -> None:
    """Writes the data into the pipe, each piece once the one before was read, and closes it."""
    closed = select.poll()
    closed.register(pipe, 0)
    try:
        for start in range(0, len(data), most):
            os.write(pipe, data[start:start + most])
            while struct.unpack("i", fcntl.ioctl(pipe, termios.FIONREAD, b"\0" * 4))[0]:
                if closed.poll(1):  # a millisecond, or at once where the program reads no further
                    return
    except BrokenPipeError:
        pass
    finally:
        os.close(pipe)


def given(data: bytes, most: int) -> tuple[int, threading.Thread]:
    """A pipe that gives the data in pieces of so many bytes at most, and the thread that does it."""
    reads, writes = os.pipe()
    giver = threading.Thread(target=give, args=(writes, data, most))
    giver.start()
    return reads, giver


def limit_files(most: int) -> None:
    """No file may have more bytes; a write beyond fails, and kills nobody."""
    signal.signal(signal.SIGXFSZ, signal.SIG_IGN)
    resource.setrlimit(resource.RLIMIT_FSIZE, (most, most))
