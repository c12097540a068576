"""Where stores may lie that outlive a machine: a bucket of a NATS server, a table of PostgreSQL. Each sees to it that what a life wrote is
never followed by what an earlier life writes."""
import base64
import glob
import json
import os
import pwd
import queue
import shutil
import signal
import socket
import struct
import subprocess
import tempfile
import threading
import time

import lives
from lives import Wrong
from server import Server

TABLE = """
CREATE TABLE sblog (store text, name text, number bigint, claim bigint NOT NULL, bytes bytea NOT NULL, PRIMARY KEY (store, name, number));
CREATE FUNCTION judge() RETURNS trigger LANGUAGE plpgsql AS $$ BEGIN
    IF NEW.name <> 'claim' AND NEW.claim < (SELECT claim FROM sblog WHERE store = NEW.store AND name = 'claim') THEN
        RAISE 'an earlier life writes';
    END IF;
    RETURN NEW; END $$;
CREATE TRIGGER judge BEFORE INSERT OR UPDATE ON sblog FOR EACH ROW EXECUTE FUNCTION judge();
"""


def lets_through(folder):
    """Other users may go to what is in a temporary folder."""
    while folder.startswith(tempfile.gettempdir() + os.sep):
        os.chmod(folder, 0o711)
        folder = os.path.dirname(folder)


class Storage:
    """`word` is what --store says, `needs` what it can't be without, `may_fail` whether its server may be killed: one of NATS that has no
    replicas forgets then what it took (nats-server 2.9.10)."""

    may_fail = False

    @classmethod
    def is_here(cls):
        if shutil.which(cls.needs) or glob.glob(cls.needs):
            return True
        print(f"not tried, since there is no {cls.needs}: {cls.__doc__.split('.')[0].lower()}", flush=True)
        return False

    def takes(self, program):
        """It keeps what the program stores, from its next life on."""
        program.store, program.slots = self.word, lambda: self.kept(program.number)
        if program.home is None:
            program.home = tempfile.mkdtemp(prefix="machine.", dir=program.cluster.folder)


class Bucket(Storage):
    """A bucket `bank`. What JetStream has taken it sends on, and it is looked at here."""

    needs, replicas = "nats-server", 1

    def __init__(self, folder, host, port):
        self.host, self.port, self.claims, self.fault, self.answers = host, port, {}, "no write was seen", queue.Queue()
        self.server = Server(True, port, host, os.path.join(folder, "jetstream"))
        self.word = f"nats:nats://{host}:{port}/bank"

    def begins(self):
        self.server.__enter__()

    def __enter__(self):
        self.begins()
        self.connect()
        config = {"name": "KV_bank", "subjects": ["$KV.bank.>"], "max_msgs_per_subject": 1, "discard": "new", "storage": "file",
                  "num_replicas": self.replicas, "allow_rollup_hdrs": True, "republish": {"src": ">", "dest": "taken.>"}}
        until = time.monotonic() + 30
        while "error" in (said := self.asks("CREATE", config)):
            if time.monotonic() > until:
                raise Wrong(f"NATS makes no bucket: {said}")
            time.sleep(0.2)
        return self

    def __exit__(self, *_):
        self.server.__exit__()

    def connect(self):
        self.socket = socket.create_connection((self.host, self.port))
        self.socket.sendall(b'CONNECT {"verbose":false,"headers":true}\r\nSUB taken.> 1\r\nSUB asked 2\r\n')
        threading.Thread(target=self.look, args=[self.socket, self.socket.makefile("rb")], daemon=True).start()

    def asks(self, what, about):
        """What JetStream answers; while its servers don't know one another yet it says nothing."""
        text = json.dumps(about)
        self.socket.sendall(f"PUB $JS.API.STREAM.{what}.KV_bank asked {len(text)}\r\n{text}\r\n".encode())
        try:
            return json.loads(self.answers.get(timeout=5))
        except queue.Empty:
            return {"error": "no answer"}

    def look(self, out, stream):
        for line in stream:
            words = line.split()
            if words[0] == b"PING":
                out.sendall(b"PONG\r\n")
            elif words[0] in (b"MSG", b"HMSG"):
                head = int(words[-2]) if words[0] == b"HMSG" else 0
                self.take(words[1].decode(), stream.read(int(words[-1]) + 2)[head:-2])

    def take(self, subject, value):
        if subject == "asked":
            self.answers.put(value)
            return
        store, *piece = subject.split(".")[4:]
        place = (store, *piece[:1])  # the files, or pieces of a life, which may go on until another one has put a stone behind them
        claim = struct.unpack_from("<Q", value)[0]
        if not self.claims:
            self.fault = None
        if claim < self.claims.get(place, 0):
            self.fault = f"life {claim} of process {store} writes {subject} after life {self.claims[place]}"
        self.claims[place] = claim

    def kept(self, number):
        """What the process keeps under the name `kept`, as its last write has it."""
        said = self.asks("MSG.GET", {"last_by_subj": f"$KV.bank.bank.{number}"})
        value, at = base64.b64decode(said["message"]["data"]), 32
        while at < len(value):
            name, size = value[at:at + 12].rstrip(b"\0"), struct.unpack_from("<I", value, at + 12)[0]
            if name == b"kept":
                return value[at + 16:at + 16 + size]
            at += 16 + size
        raise Wrong(f"process {number} keeps nothing")


class Table(Storage):
    """A table in a database of a server of its own, which another user runs where this is root."""

    needs, may_fail = "/usr/lib/postgresql/*/bin/postgres", True

    def __init__(self, folder, host, port):
        self.folder, self.host, self.port, self.fault = os.path.join(folder, "postgres"), host, port + 100, None
        self.bin = os.path.dirname(max(glob.glob(self.needs)))
        self.user = {} if os.geteuid() else {"user": "postgres" if "postgres" in [it.pw_name for it in pwd.getpwall()] else "nobody"}
        self.word = f"postgres:host={host} port={self.port} dbname=postgres user=bank"

    def run(self, program, *words, **more):
        return subprocess.run([os.path.join(self.bin, program), *words], check=True, capture_output=True, cwd="/", text=True, **more)

    def __enter__(self):
        os.makedirs(self.folder, 0o700)
        if self.user:
            shutil.chown(self.folder, **self.user)
            lets_through(os.path.dirname(self.folder))
        data = os.path.join(self.folder, "data")
        self.run("initdb", "-D", data, "-U", "bank", "-A", "trust", "--no-sync", **self.user)
        with open(os.path.join(data, "pg_hba.conf"), "a") as file:
            file.write("host all all samenet trust\n")
        self.start()
        self.query(TABLE)
        return self

    def start(self):
        words = [os.path.join(self.bin, "postgres"), "-D", os.path.join(self.folder, "data"), "-h", self.host, "-p", str(self.port)]
        words += ["-k", self.folder]
        self.child = subprocess.Popen(words, stdout=subprocess.DEVNULL, stderr=subprocess.DEVNULL, cwd="/", **self.user)
        lives.running.add(self.child)
        until = time.monotonic() + 60
        while subprocess.run([os.path.join(self.bin, "pg_isready"), "-h", self.host, "-p", str(self.port)], capture_output=True).returncode:
            if time.monotonic() > until:
                raise Wrong("PostgreSQL doesn't answer")
            time.sleep(0.1)

    def fails(self):
        self.__exit__()
        self.start()

    def __exit__(self, *_):
        self.child.send_signal(signal.SIGQUIT)  # as by a kill, but for the processes that it started
        self.child.wait()

    def query(self, text):
        return self.run("psql", "-h", self.host, "-p", str(self.port), "-U", "bank", "-d", "postgres", "-qAtc", text).stdout.strip()

    def kept(self, number):
        text = self.query(f"SELECT encode(bytes, 'hex') FROM sblog WHERE store = 'bank.{number}' AND name = 'kept'")
        return bytes.fromhex(text)


def with_each(folder, one, kinds=(Bucket, Table)):
    """What comes of one campaign with each kind of storage."""
    rows, right = {}, True
    for kind in (kind for kind in kinds if kind.is_here()):
        place = os.path.join(folder, kind.__name__.lower())
        os.makedirs(place)
        row, is_right = one(place, kind)
        rows.update({f"{kind.__name__.lower()} {key}": value for key, value in row.items()})
        right = right and is_right
    return rows, right
