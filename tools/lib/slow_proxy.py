"""A socket in front of a node that hands everything on late, as a slow link would."""
import queue
import socket
import threading
import time

from nodes import connect


class SlowProxy:
    """A socket whose connections lead to another. What comes is handed on so many seconds later, both ways, and so is its end."""

    def __init__(self, path, target, seconds):
        # (how many connections it has taken)
        self.path, self.target, self.seconds, self.count = path, target, seconds, 0
        self.door = socket.socket(socket.AF_UNIX, socket.SOCK_STREAM)
        self.door.bind(str(path))
        self.door.listen(64)
        threading.Thread(target=self.take, daemon=True).start()

    def take(self):
        while True:
            try:
                near = self.door.accept()[0]
            except OSError:
                return
            self.count += 1
            try:
                far = connect(self.target)
            except OSError:
                near.close()
                continue
            far.settimeout(None)
            for source, sink in ((near, far), (far, near)):
                pieces = queue.Queue()
                threading.Thread(target=self.hear, args=(source, pieces), daemon=True).start()
                threading.Thread(target=self.say, args=(sink, pieces), daemon=True).start()

    def hear(self, source, pieces):
        while True:
            try:
                piece = source.recv(65536)
            except OSError:
                piece = b""
            pieces.put((time.monotonic() + self.seconds, piece))
            if not piece:
                return

    def say(self, sink, pieces):
        while True:
            due, piece = pieces.get()
            time.sleep(max(0, due - time.monotonic()))
            try:
                if not piece:
                    sink.shutdown(socket.SHUT_WR)
                    return
                sink.sendall(piece)
            except OSError:
                return

    def end(self):
        self.path.unlink()
        self.door.shutdown(socket.SHUT_RDWR)
        self.door.close()
