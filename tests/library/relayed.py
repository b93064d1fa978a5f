"""A relay in front of a service, which measures how long each request waits there for the first byte of its reply. On a
busy machine the client itself may be slow; that is not measured."""
import contextlib
import socket
import threading
import time

from tests.library.checks import expect
from tests.library.listening import Listener
from tests.library.sessions import PATIENCE


class Relay(Listener):
    """A port that leads to another. `waits` has the seconds that each request waited."""

    def __init__(self, port):
        super().__init__()
        self.to, self.waits = port, []

    def carry(self, client):
        with client:
            self.carry_to_service(client)
            # The other thread still reads from the client: closing alone would not tell the client that this is the end.
            with contextlib.suppress(OSError):
                client.shutdown(socket.SHUT_RDWR)

    def carry_to_service(self, client):
        asked = []
        with contextlib.suppress(OSError), socket.create_connection(("127.0.0.1", self.to)) as service:
            threading.Thread(target=self.pass_on, args=(client, service, asked), daemon=True).start()
            while piece := service.recv(65536):
                if asked:
                    self.waits.append(time.monotonic() - asked[-1])
                    asked.clear()
                client.sendall(piece)

    @staticmethod
    def pass_on(client, service, asked):
        with contextlib.suppress(OSError):
            while piece := client.recv(65536):
                asked.append(time.monotonic())
                service.sendall(piece)
            service.shutdown(socket.SHUT_WR)

    def none_waited(self, who, count):
        """So many requests came since this was asked last, and none waited for the end of another's connection."""
        waits, self.waits = self.waits, []
        expect(f"the requests of {who}, and whether one waited", (len(waits), max(waits) < PATIENCE - 1), (count, True))
