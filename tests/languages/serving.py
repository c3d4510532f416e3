"""Answers the calls of the stand-in for `debctl`, and asks the drivers.

A call needs neither a new interpreter nor a new driver: the server forks a process for it that has
all modules, and each process of a driver answers one question after another.
"""

import gc
import os
import socket
import struct
import subprocess
import sys
import traceback

FAILED = 98
SECONDS = 60


def put(file, data):
    """Writes all to an open file, without keeping any of it."""
    data = memoryview(data)
    while data:
        data = data[os.write(file, data) :]


class Driver:
    """Processes of one driver. Each reads `CALL NUMBER COUNT` and so many texts, each after a line with
    its length, and writes its answer in the same way."""

    def __init__(self, path, count):
        self.path = path
        self.processes = [
            subprocess.Popen([path], bufsize=0, stdin=subprocess.PIPE, stdout=subprocess.PIPE)
            for _ in range(count)
        ]
        self.idle = os.pipe()
        os.write(self.idle[1], bytes(range(count)))

    def answer(self, call, number, texts):
        """What a driver answers; none if it has ended."""
        at = os.read(self.idle[0], 1)
        process = self.processes[at[0]]
        try:
            put(process.stdin.fileno(), b"%s %d %d\n" % (call.encode(), number, len(texts)))
            for text in texts:
                put(process.stdin.fileno(), b"%d\n" % len(text))
                put(process.stdin.fileno(), text)
            return read_text(process.stdout.fileno())
        except BrokenPipeError:
            return None
        finally:
            os.write(self.idle[1], at)

    def end(self):
        """The statuses of the processes, which end since there is no further question."""
        statuses = []
        for process in self.processes:
            process.stdin.close()
            try:
                statuses.append(process.wait(SECONDS))
            except subprocess.TimeoutExpired:
                process.kill()
                statuses.append(process.wait())
        return statuses


def read_text(file):
    """A text after a line with its length."""
    head, parts = b"", []
    while b"\n" not in head:
        head += some_of(file)
    length, _, part = head.partition(b"\n")
    lacking = int(length)
    while part or lacking:
        parts.append(part)
        lacking -= len(part)
        part = some_of(file) if lacking else b""
    return b"".join(parts)


def some_of(file):
    """Some bytes of an open file, which must not end yet."""
    part = os.read(file, 1 << 20)
    if not part:
        raise BrokenPipeError
    return part


def serve(listener, answer):
    """Has each call answered by a process of its own. It ends when it is killed."""
    gc.freeze()  # so that the processes share what is here
    running = set()
    while True:
        connection, _ = listener.accept()
        process = os.fork()
        if process == 0:
            listener.close()
            reply(connection, answer)
        connection.close()
        running.add(process)
        running -= {it for it in running if os.waitpid(it, os.WNOHANG)[0]}


def reply(connection, answer):
    """Answers a call, sends its status, and ends the process."""
    status = FAILED
    try:
        status = answer(call_of(connection))
        sys.stdout.flush()
    except BaseException:
        traceback.print_exc()
    finally:
        connection.sendall(bytes([status & 255]))
        os._exit(0)


def call_of(connection):
    """The arguments of a call, whose streams and current folder this process takes. A file that the
    caller alone has open is found among those of its process."""
    head, files, _, _ = socket.recv_fds(connection, 4, 4)
    for at, file in enumerate(files[:3]):
        os.dup2(file, at)
    os.fchdir(files[3])
    for file in files:
        os.close(file)
    lacking, words = int.from_bytes(head, sys.byteorder), b""
    while lacking > len(words):
        words += connection.recv(lacking - len(words))
    credentials = connection.getsockopt(socket.SOL_SOCKET, socket.SO_PEERCRED, struct.calcsize("3i"))
    caller = struct.unpack("3i", credentials)[0]
    return [
        os.fsdecode(word).replace("/dev/fd/", f"/proc/{caller}/fd/") for word in words.split(b"\0")[:-1]
    ]
