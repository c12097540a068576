"""A NATS server of one's own."""
import socket
import subprocess
import time

import lives


class Server:
    """It runs in the `with`, if one is wanted."""

    def __init__(self, is_wanted, port, host="127.0.0.1", streams=None, words=()):
        """streams: the folder of JetStream, if that is wanted; words: more of the command line."""
        self.is_wanted, self.port, self.host, self.streams, self.words = is_wanted, port, host, streams, words

    def start(self):
        words = ["nats-server", "-a", self.host, "-p", str(self.port)]
        if self.streams:
            words += ["-js", "-sd", self.streams]
        self.child = subprocess.Popen([*words, *self.words], stdout=subprocess.DEVNULL, stderr=subprocess.DEVNULL)
        lives.running.add(self.child)

    def kill(self):
        self.child.kill()
        self.child.wait()

    def answers(self):
        with socket.socket() as out:
            return out.connect_ex((self.host, self.port)) == 0

    def __enter__(self):
        if self.is_wanted:
            self.start()
            while not self.answers():
                time.sleep(0.01)
        return self

    def __exit__(self, *_):
        if self.is_wanted:
            self.kill()
