"""Tests of the module sblog: the worked rows (rows.py), images, exceptions, and what keeps a handle safe."""
import copy
import re
import sys
import threading
import unittest
from pathlib import Path

sys.dont_write_bytecode = True
sys.path.insert(0, str(Path(__file__).resolve().parents[1]))
import rows  # noqa: E402
import sblog  # noqa: E402

EXAMPLES = rows.TOP / "examples"
ADDER = (EXAMPLES / "adder.sbi").read_bytes()


def message(word):
    return bytes([word]).ljust(64, bytes(1))


def of_entry(entry):
    return 100 * entry.call + entry.answer


def session_call(it, call, arguments):
    """What a row tells of a session's call."""
    match call:
        case "drive":
            drive = it.drive(*arguments)
            return (12 * drive.is_stopped, [drive.accepted], b"")
        case "standing":
            length, phase = it.standing(*arguments)
            told = length + 100 * phase
        case "fill":
            while it.room() > arguments[0]:
                it.trim(0)
            told = it.room()
        case "entry":
            told = [of_entry(entry) for entry in it.entries(*arguments)[:1]] or None
        case "entries":
            told = min(len(it.entries(arguments[0])), arguments[1])
        case "shown":
            told = it.shown(*arguments)
            told = told and len(told.payload)
        case "arrive":
            told = of_entry(it.arrive(*arguments))
        case "lose":
            it.lose(*arguments)
            told = []
        case "alone":
            told = it.recover_alone(*arguments)
        case _:
            told = getattr(it, call)(*arguments)
    if told is None:
        return 20, [], b""
    told = len(told) if isinstance(told, (bytes, str)) else told
    return 0, told if isinstance(told, list) else [int(told)], b""


def party_call(it, call, arguments):
    """What a row tells of a node's or a gateway's call."""
    told = getattr(it, call)(*arguments)
    match call, told:
        case ("work", bool()):
            return (0 if told else 20), [], b""
        case ("take" | "take_all" | "output", None):
            return 20, [], b""
        case ("take_all", (to, count, data)):
            return 0, [to, count, len(data)], data[:3]
        case ("take" | "output" | "receive_all" | "standing", tuple()):
            numbers, data = (told[:-1], told[-1]) if isinstance(told[-1], bytes) else (told, b"")
            return 0, [int(number) for number in numbers], data
    return 0, [told] if isinstance(told, int) else [], told if isinstance(told, bytes) else b""


def opened(kind, call, arguments):
    match kind, call:
        case "session", _: return sblog.Session(arguments)
        case "gateway", "open": return sblog.Gateway(*arguments)
        case "gateway", _: return sblog.Gateway.revive(*arguments)
        case _, "open": return sblog.Node(*arguments[:3], sblog.Limits(*arguments[3:]))
        case _, "resume": return sblog.Node.resume(*arguments[:2], sblog.Limits(*arguments[2:]))
    return sblog.Node.revive(*arguments[:3], sblog.Limits(*arguments[3:]))


def closed(kind):
    it = opened(kind, "open", {"session": [ADDER], "gateway": (1,), "node": (ADDER, 1, 1)}[kind])
    it.close()
    return it


class Rows(unittest.TestCase):
    def test_rows(self):
        table, it = None, None
        for name, call, arguments, code, numbers, data in rows.rows():
            kind = name.split(".")[0]
            if name != table:
                table, it = name, closed(kind)
            try:
                if call in ("open", "revive", "resume"):
                    it, found = opened(kind, call, arguments), (0, [], b"")
                elif call == "packet_label":
                    found = 0, [*map(int, sblog.packet_label(*arguments))], b""
                elif call == "close":
                    it.close()
                    found = 0, [], b""
                else:
                    found = (session_call if kind == "session" else party_call)(it, call, arguments)
            except sblog.Error as error:
                found = error.code, [] if error.fault is None else [error.fault], b""
            self.assertEqual(found, (code, numbers, data), f"{name} {call} {arguments}")


class Images(unittest.TestCase):
    def test_calls(self):
        with sblog.Image(ADDER) as adder:
            state = bytearray(adder.state_len)
            report = sblog.Report(0, 6, [], [])
            self.assertEqual(adder.run(state, [message(5), message(7)]), [report, report])
            self.assertEqual(state, (12).to_bytes(8, "little"))
            self.assertEqual(adder.compile(), (EXAMPLES / "native/adder.bin").read_bytes())
        with sblog.Image((EXAMPLES / "relay.sbi").read_bytes()) as relay:
            [report] = relay.run(bytearray(), [message(9)], 1, 0, 2)
            self.assertEqual((report.sends, report.outputs), ([(2, message(9))], []))
        with sblog.Image((EXAMPLES / "echo.sbi").read_bytes()) as echo:
            self.assertEqual(echo.run(bytearray(), [message(9)])[0].outputs, [message(9)])

    def refusal(self, call, *arguments):
        with self.assertRaises(sblog.ImageError) as caught:
            call(*arguments)
        return caught.exception

    def test_refusals(self):
        moved = bytearray(ADDER)
        moved[48] = 0xB7  # the last instruction is a move
        error = self.refusal(sblog.Image, moved)
        self.assertEqual((error.code, error.fault), (4, sblog.Fault(2, 5)))
        self.assertEqual(error.text, "a rule of the verifier, V1 to V10")
        self.assertEqual(self.refusal(sblog.Image, b"SBI4" + ADDER[4:]).fault, sblog.Fault(2, 0))
        adder, alone = sblog.Image(ADDER), (message(1),)
        self.assertEqual(self.refusal(adder.run, bytearray(9), alone).code, 5)
        self.assertEqual(self.refusal(adder.run, bytearray(8), [b"short"]).code, 6)
        self.assertEqual(self.refusal(adder.run, bytearray(8), alone, 1, 1).code, 7)
        self.assertEqual(self.refusal(sblog.Image((EXAMPLES / "c/sized.sbi").read_bytes()).run, bytearray(8), alone).code, 9)
        adder.close()
        adder.close()
        self.assertEqual(self.refusal(adder.run, bytearray(8), alone).code, 10)


class Numbers(unittest.TestCase):
    def test_the_crate_declares_each_function(self):
        declared = re.findall(r"pub fn (sblog_\w+)", (rows.TOP / "bindings/rust/src/raw.rs").read_text())
        self.assertEqual(set(declared), rows.functions())

    def test_names_are_those_of_the_header(self):
        header = (rows.TOP / "include/sblog.h").read_text()
        begins = {sblog.Phase: "SESSION", sblog.Stage: "NODE", sblog.Call: "CALL", sblog.Answer: "ANSWER", sblog.PacketKind: "PACKET"}
        for it in (it for kind in begins for it in kind):
            self.assertRegex(header, rf"\bSBLOG_{begins[type(it)]}_{it.name} = {it.value}\b")


class Handles(unittest.TestCase):
    def test_handles(self):
        with sblog.Session([ADDER]) as session:
            session.input(1, 9, bytes([7, 7]))
            self.assertEqual(session.trace(), "000001 w0 input 1 9 -> logged 1\n")
            entry = sblog.Entry(0, sblog.Call.INPUT, (1, 9, 0), sblog.Answer.LOGGED, (1, 0), bytes([7, 7]))
            self.assertEqual(session.entries(), [entry])
            for _ in range(2):
                session.drive(100)
                self.assertEqual(session.state(1), (0x707).to_bytes(8, "little"))
                session.crash(1)
                session.recover(1)
            self.assertRaises(OverflowError, session.crash, 257)
            self.assertRaises(TypeError, copy.deepcopy, session)
            told = []
            thread = threading.Thread(target=lambda: told.append(self.assertRaises(RuntimeError, session.room)))
            thread.start()
            thread.join()
            self.assertEqual(told, [None])
        with sblog.Session([(EXAMPLES / name).read_bytes() for name in ("relay.sbi", "echo.sbi")]) as pair:
            pair.input(1, 1, bytes([7]))
            pair.drive(100)
            self.assertEqual(pair.shown(0), sblog.Shown(2, 1, message(7)))
        with self.assertRaisesRegex(sblog.SessionError, "code 16: the handle is closed; to open one, it is open"):
            session.room()
        with self.assertRaisesRegex(sblog.SessionError, "code 1: there is no such process; to open one, 1 to 15 files"):
            sblog.Session([ADDER] * 16)

    def test_a_host_makes_the_call_of_a_node(self):
        """The counter's call by the word 5, made by hand: it adds 5 to its state, and gives the sum as an output."""
        gateway, node = sblog.Gateway(1), sblog.Node((EXAMPLES / "node/counter.sbi").read_bytes(), 1, 1)
        gateway.input(1, bytes([5]))
        node.receive(gateway.take().data)
        job, record = node.job(), bytearray(4416)
        self.assertEqual((*job[:2], *job[3:6], job.array[0]), (1, 0, 1, 0, 1, 5))
        for at, word in {8: 1, 16: 9, 24: 1, 40: 1, 2248: 64, 2256: 5}.items():
            record[at] = word
        job.array[256] = 5
        node.done(job, record)
        self.assertEqual(node.state(), (5).to_bytes(8, "little"))
        with self.assertRaises(sblog.NodeError) as caught:
            node.done(job, record)
        self.assertEqual(caught.exception.code, 20)
        self.assertEqual(gateway.receive_all(node.take_all(1).data), (1, 0, 0))  # a longer packet comes alone

    def test_a_node_opens_with_a_state(self):
        counter, five = (EXAMPLES / "node/counter.sbi").read_bytes(), (5).to_bytes(8, "little")
        self.assertEqual(sblog.Node(counter, 1, 1, state=five).state(), five)
        with self.assertRaises(sblog.NodeError) as caught:
            sblog.Node(counter, 1, 1, state=five[1:])
        self.assertEqual(caught.exception.code, 21)


def tearDownModule():
    """The module keeps each function that was called once."""
    left = rows.functions() - vars(sblog.handle.LIBRARY).keys()
    assert not left, f"the tests don't call {', '.join(sorted(left))}"


if __name__ == "__main__":
    unittest.main()
