"""A program that connects to the gateway."""
import socket

from lives import Wrong


class Talk:
    def __init__(self, place, context=None):
        """At a path; or at a port, by TLS as the context has it."""
        if context:
            self.socket = context.wrap_socket(socket.create_connection(("127.0.0.1", place)), server_hostname="gateway.programs")
        else:
            self.socket = socket.socket(socket.AF_UNIX, socket.SOCK_STREAM)
            self.socket.connect(place)
        self.socket.settimeout(30)
        self.file, self.pen = self.socket.makefile("r", newline="\n"), self.socket.makefile("w", newline="\n")

    def says(self, *lines):
        """Lines in one write."""
        self.pen.write("".join(line + "\n" for line in lines))
        self.pen.flush()

    def heard(self):
        try:
            return self.file.readline().rstrip("\n")
        except TimeoutError as over:
            raise Wrong("nothing was heard for 30 s") from over

    def hears(self, *lines):
        for line in lines:
            heard = self.heard()
            if heard != line:
                raise Wrong(f"{heard!r} in place of {line!r}")

    def goes(self):
        self.file.close()
        self.pen.close()
        self.socket.close()
