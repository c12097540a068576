"""Where the library's nodes do otherwise than the rules say, and harm no promise by that. `beside` takes the model with these, unless it
is told to be strict; whoever mends one takes it out here."""

from node import Node
from packets import Told

MOST_RECEIVED = 2**58
MOST_SENT_FOR_ONE = 16


class NodeAsBuilt(Node):
    @staticmethod
    def takes(kept):
        """Bytes that no process can have kept are refused: too long, or with more sent than its messages can have made it send."""
        most = MOST_SENT_FOR_ONE * kept.length
        return kept.length <= MOST_RECEIVED and all(first + len(payloads) - 1 <= most for first, payloads in kept.logs)

    def begin_to_send(self):
        """One that has come back loses the packets that were not taken by then."""
        self.out.clear()
        super().begin_to_send()

    def hear_of_teller(self, peer, packet):
        """The gateway's incarnation is 1, and is kept as its Told names it: a forged one is too."""
        super().hear_of_teller(peer, packet)
        if isinstance(packet, Told):
            self.heard[peer] = packet.teller
