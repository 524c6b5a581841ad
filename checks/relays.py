"""Relays between clients and nodes, which count what passes."""

import socket
import threading

from nodes import free_ports


class Counting:
    """Passes bytes on to a port, and counts the connections, and the bytes and the replies of 206 that come back."""

    def __init__(self, to):
        (self.port,) = free_ports(1)
        self.to, self.connections, self.bytes, self.parts = to, 0, 0, 0
        self.listener = socket.create_server(("127.0.0.1", self.port))
        threading.Thread(target=self.accept, daemon=True).start()

    def accept(self):
        while True:
            client, _ = self.listener.accept()
            self.connections += 1
            node = socket.create_connection(("127.0.0.1", self.to))
            for it in ((client, node, 0), (node, client, 1)):
                threading.Thread(target=self.pass_on, args=it, daemon=True).start()

    def pass_on(self, one, other, counts):
        try:
            while piece := one.recv(65_536):
                other.sendall(piece)
                self.bytes += counts * len(piece)
                self.parts += counts * piece.count(b"HTTP/1.1 206 ")
            other.shutdown(socket.SHUT_WR)
        except OSError:
            pass
