"""A node, or the gateway, of the library and of the slow model, which are given the same calls and have to answer the same."""

import gateway as slow_gateway
import handlers
import library
import node as slow_node
from images import ALL

WORDS_OF_STANDING = ["length", "base", "incarnation", "stage", "exact", "receipts", "entries", "packets", "replays", "waited_for"]
STORE_IS_COMPARED_EVERY = 64


class Difference(Exception):
    """What the library answered, and what the model did."""


def spelled(value):
    return value.hex() if isinstance(value, bytes) else " ".join(map(spelled, value)) if isinstance(value, tuple) else str(value)


def answer_of(value):
    return value if isinstance(value, (tuple, list)) else (value,)


def compare(call, found, wanted):
    if found != wanted:
        sides = "".join(f"\n  {side} {tuple(map(spelled, answer_of(of)))}" for side, of in (("library", found), ("model  ", wanted)))
        raise Difference(f"{spelled(call)}{sides}")
    return found


class Pair:
    """Both, by their calls; `trace` is called with each call that is made."""

    def __init__(self, name, of_library, of_model, trace):
        self.name, self.of_library, self.of_model, self.trace, self.calls = name, of_library, of_model, trace, 0

    def make(self, call, *arguments):
        words = (self.name, call, *arguments)
        self.trace(words)
        self.calls += 1
        found = getattr(self.of_library, call)(*arguments)
        compare(words, found, getattr(self.of_model, call)(*arguments))
        self.look(words)
        return found

    def whole(self, call):
        """What a call writes: its size is asked for first."""
        answer = self.make(call, 0)
        return self.make(call, answer[1]) if answer[0] == library.TOO_SHORT else answer

    def close(self):
        """The program is killed."""
        self.trace(f"{self.name} close")
        compare(f"{self.name} close", self.of_library.close(), 0)


class NodePair(Pair):
    stage = property(lambda self: self.of_model.stage)

    def look(self, words):
        found, wanted = self.of_library.standing(), self.of_model.standing()
        if found != wanted:
            names = [name for name, one, other in zip(WORDS_OF_STANDING, found, wanted) if one != other]
            raise Difference(f"{spelled(words)}\n  then {names}\n  library {found}\n  model   {wanted}")
        compare((words, "then state"), self.of_library.state(1024), self.of_model.state(1024))


class GatewayPair(Pair):
    def look(self, words):
        if self.calls % STORE_IS_COMPARED_EVERY == 0:
            wanted = self.of_model.store(library.MOST_ROOM)
            compare((words, "then store"), self.of_library.store(wanted[1]), wanted)


class Pairs:
    """Opens and revives both; the model's nodes are of the class `node`."""

    def __init__(self, lib, node, trace):
        self.lib, self.node, self.trace = lib, node, trace

    def made(self, pair, name, words, found, wanted):
        """The codes of both, and the pair where there is one."""
        self.trace(f"{name} {words}")
        *codes, of_library = found
        compare(f"{name} {words}", codes, list(wanted[:-1]))
        if of_library is None:
            return *codes, None
        made = pair(name, of_library, wanted[-1], self.trace)
        made.look(words)
        return *codes, made

    def opened_node(self, name, me, n, limits, state=None):
        return self.made(
            NodePair, f"node {me}", f"open {name} {n} {tuple(limits)} {state and state.hex()}",
            library.opened_node(self.lib, ALL[name], me, n, limits, state),
            slow_node.opened(self.node, handlers.load(ALL[name]), me, n, limits, state))

    def revived_node(self, name, me, kept, incarnation, limits):
        return self.made(
            NodePair, f"node {me}", f"revive {name} {incarnation} {tuple(limits)} {kept.hex()}",
            library.revived_node(self.lib, ALL[name], kept, incarnation, limits),
            slow_node.revived(self.node, handlers.load(ALL[name]), kept, incarnation, limits))

    def opened_gateway(self, n, page, tick):
        return self.made(GatewayPair, "gateway", f"open {n} {page} {tick}", library.opened_gateway(self.lib, n, page, tick), slow_gateway.opened(n, page, tick))

    def revived_gateway(self, store, page, tick):
        return self.made(
            GatewayPair, "gateway", f"revive {page} {tick} {store.hex()}",
            library.revived_gateway(self.lib, store, page, tick), slow_gateway.revived(store, page, tick))
