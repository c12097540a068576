"""Who may speak by TLS: those whom the authority signed, each under its own name."""
import os
import shutil
import signal
import socket
import ssl
import time

import lives
from certificates import Authority, context
from frames import LOGGED, Framed, frame
from listening import PROCESSES, payload, tells, works
from lives import Cluster, Wrong
from looks import is_built_with, told
from talk import Talk

PORT, LINES = 17760, 17769  # of tls


def grows(program, name, least):
    """A figure comes to so much, at least; what it is."""
    until, program.status = time.monotonic() + 20, None
    while int((program.status or {}).get(name, -1)) < least:
        if time.monotonic() > until:
            raise Wrong(f"{program.name} tells {program.status}, not {name} {least}")
        program.child.send_signal(signal.SIGUSR1)
        time.sleep(0.05)
    return int(program.status[name])


def has_said(program, sentence):
    until = time.monotonic() + 30
    while not any(sentence in line for line in program.said):
        if time.monotonic() > until:
            raise Wrong(f"{program.name} hasn't said {sentence!r}: {program.said}")
        time.sleep(0.01)


def says(port, stranger, *frames, seconds=9):
    """Somebody connects by TLS and sends; whether the connection stays for so long."""
    stranger.check_hostname = False
    try:
        with socket.create_connection(("127.0.0.1", port), 20) as out, stranger.wrap_socket(out) as sealed:
            sealed.sendall(b"".join(len(frame).to_bytes(4, "little") + frame for frame in frames))
            sealed.settimeout(seconds)
            return sealed.recv(1) != b""
    except TimeoutError:
        return True
    except OSError:
        return False


def strangers(cluster, authority, folder):
    """Those whom nobody signed, of another name, whose time is over, or of an older TLS: each is refused, and counted."""
    other = Authority(os.path.join(folder, "other"))
    names = {name: authority.signs(os.path.join(folder, name), f"{name}.programs") for name in ("program", "nobody")}
    no_name = os.path.join(folder, "no-name")
    os.makedirs(no_name)
    shutil.copy(authority.own, no_name)
    old = context(cluster.certificate(2))
    old.maximum_version = ssl.TLSVersion.TLSv1_2
    late = context(authority.signs(os.path.join(folder, "late"), "echo.programs", -1))
    unsigned = context(other.signs(os.path.join(folder, "unsigned"), "echo.programs"))
    unsigned.load_verify_locations(authority.own)
    elsewhere = context(authority.signs(os.path.join(folder, "elsewhere"), "echo.others"))
    all_over = [context(no_name), old, late, unsigned, elsewhere, context(names["nobody"])]
    for port, program, strange in ((PORT + 1, cluster.nodes[0], "program"), (LINES, cluster.gateway, "nobody")):
        own = names[strange] if strange == "program" else cluster.certificate(2)
        for stranger in (*all_over, context(own)):
            before = grows(program, "strangers", 0)
            if says(port, stranger, b"x"):
                raise Wrong(f"a stranger may speak to {program.name}")
            grows(program, "strangers", before + 1)
    with socket.create_connection(("127.0.0.1", PORT + 1)) as out:
        before = grows(cluster.nodes[0], "strangers", 0)
        out.sendall(b"GET / HTTP/1.0\r\n\r\n")
        grows(cluster.nodes[0], "strangers", before + 1)


def forgers(cluster):
    """A process speaks for itself alone: in bundles and in greetings."""
    relay, echo = cluster.nodes
    own, gateway = context(cluster.certificate(2)), cluster.gateway
    for sender, broken, refused in ((0, 1, 0), (2, 1, 1)):
        if not says(PORT + 1, own, lives.bundle(relay.id(), sender, 1, b"no packet"), seconds=1):
            raise Wrong("a process may not speak")
        tells(relay, broken=broken, refused=refused)
    has_said(relay, "a bundle of another process than its certificate names")
    join = lives.greeting(lives.JOIN, 1, gateway.id(), b"another store..1")
    says(PORT, own, join, seconds=1)
    if any("came with another store" in line for line in gateway.said):
        raise Wrong("a greeting is taken of another process than its certificate names")
    says(PORT, context(cluster.certificate(1)), join, seconds=1)
    has_said(gateway, "relay came with another store than before")
    echo.wait_up()


def impostor(cluster, one, folder):
    """Who has the address of a process, and not its name, is sent nothing."""
    relay, echo = cluster.nodes
    echo.stop()
    heard = []
    for name in (os.path.join(folder, "nobody"), os.path.join(folder, "late"), cluster.certificate(2)):
        server = context(name, ssl.PROTOCOL_TLS_SERVER)
        before = grows(relay, "strangers", 0)
        with socket.create_server(("127.0.0.1", PORT + 2)) as listener:
            listener.settimeout(10)
            one.says("input relay 9")
            heard.append(accepted(listener, server))
        if not heard[-1]:
            grows(relay, "strangers", before + 1)
        one.heard()
    if [bool(it) for it in heard] != [False, False, True]:
        raise Wrong(f"somebody at the address of echo heard {heard}")
    echo.start()
    echo.wait_up()
    for number in range(4, 7):
        one.hears(f"output echo {number} {payload(9)}")


def accepted(listener, server):
    """What the next one who connects says, and whether it could: of connections that come, up to one that says something."""
    for _ in range(3):
        out, _ = listener.accept()
        out.settimeout(5)
        try:
            with server.wrap_socket(out, server_side=True) as sealed:
                said = sealed.recv(4)
                if said:
                    return said
        except OSError:
            continue
    return b""


def own_files(cluster, authority, folder):
    """A program that has no certificate of its own doesn't start."""
    words = cluster.nodes[1].command()[1:]
    place = words.index("--tls") + 1
    late = authority.signs(os.path.join(folder, "late2"), "echo.programs", -1)
    mixed = authority.signs(os.path.join(folder, "mixed"), "echo.programs")
    shutil.copy(os.path.join(cluster.certificate(1), "tls.key"), mixed)
    for found, sentence in ((cluster.certificate(1), "tls.crt: its name isn't echo.programs"), (late, "tls.crt: it has expired"),
                            (mixed, "tls.key: key values mismatch"), ("/none", "/none/tls.crt: ")):
        for more in ([], ["--check"]):
            _, lines = told([*words[:place], found, *words[place + 1:], *more], 6)
            if sentence not in lines[0]:
                raise Wrong(f"{lines}, not {sentence}")
    _, lines = told([*words[:place - 1], *words[place + 1:]], 2)
    if "--tls is needed" not in lines[0]:
        raise Wrong(lines)


def reloads(cluster, folder):
    """A new authority is taken after SIGHUP, and the earlier one isn't any more; files that won't do change nothing."""
    new = Authority(os.path.join(folder, "new"))
    for number, program in enumerate(cluster.programs):
        new.signs(cluster.certificate(number), f"{cluster.names[number]}.programs")
        program.child.send_signal(signal.SIGHUP)
        has_said(program, "certificates were read again")
    stranger = context(os.path.join(folder, "program"))
    stranger.load_verify_locations(new.own)
    before = grows(cluster.gateway, "strangers", 0)
    if says(LINES, stranger, b"x"):
        raise Wrong("the earlier authority is still believed")
    grows(cluster.gateway, "strangers", before + 1)
    two = Talk(LINES, context(new.signs(os.path.join(folder, "program2"), "program.programs")))
    two.says("outputs", "took echo 6")
    works(cluster, two, 7, 8)
    with open(os.path.join(cluster.certificate(1), "tls.crt"), "w") as file:
        file.write("nothing")
    cluster.nodes[0].child.send_signal(signal.SIGHUP)
    has_said(cluster.nodes[0], "tls.crt: ")
    works(cluster, two, 9)


def tls(folder):
    if not shutil.which("openssl"):
        print("skipped, since there is no openssl: tls")
        return
    cluster = Cluster(folder, "programs", PROCESSES, transport="tls", port=PORT)
    cluster.gateway.words = ["--listen", f"tls:127.0.0.1:{LINES}"]
    if not is_built_with("libssl", [*cluster.gateway.command()[1:], "--check"], "tls"):
        return
    authority = cluster.authority
    own_files(cluster, authority, folder)
    cluster.start()
    strangers(cluster, authority, folder)
    one = Talk(LINES, context(os.path.join(folder, "program")))
    one.says("outputs")
    works(cluster, one, 1, 2, 3)
    framed = Framed(LINES, context=context(os.path.join(folder, "program")))
    framed.says(frame(LOGGED, 1))
    framed.hears(frame(LOGGED, 1, 3))
    framed.goes()
    forgers(cluster)
    impostor(cluster, one, folder)
    one.goes()
    reloads(cluster, folder)
