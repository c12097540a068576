"""What a program may do, and who may reach what it has."""
import os
import pwd
import re
import shutil

from listening import PROCESSES, works
from lives import Cluster, Wrong
from looks import has_sandbox, told
from talk import Talk


def states(program):
    """Of each thread, what the system says of it."""
    for thread in os.listdir(f"/proc/{program.child.pid}/task"):
        with open(f"/proc/{program.child.pid}/task/{thread}/status") as file:
            yield dict(re.findall(r"(?m)^(\w+):\t(.*)$", file.read()))


def modes(folder):
    for at, folders, files in os.walk(folder):
        for name in (*folders, *files):
            about = os.lstat(os.path.join(at, name))
            yield os.path.join(at, name), about.st_mode & 0o777, about.st_uid


def guarded(folder):
    """As another user and with few system calls: what is stored and listened at is that user's alone, and lives go on."""
    user = pwd.getpwnam("nobody") if os.geteuid() == 0 else pwd.getpwuid(os.geteuid())
    cluster = Cluster(folder, "programs", PROCESSES)
    os.chmod(os.path.dirname(folder), 0o711)
    os.chmod(folder, 0o777)
    cluster.lines = os.path.join(folder, "lines")
    words = ["--user", user.pw_name, "--metrics", "unix:" + os.path.join(folder, "figures-")]
    told([*cluster.nodes[0].command()[1:], "--user", "no-such-user"], 2)
    shutil.rmtree(cluster.nodes[0].store)
    sandbox = has_sandbox(cluster.nodes[0])
    for program in cluster.programs:
        program.words = [*words[:3], words[3] + program.name, *["--sandbox"][:sandbox]]
    cluster.gateway.words += ["--listen", "unix:" + cluster.lines]
    for life in range(2):
        cluster.start()
        one = Talk(cluster.lines)
        one.says("outputs", *["took echo 3"][:life])
        works(cluster, one, 3 * life + 1, 3 * life + 2)
        for program in cluster.programs:
            for state in states(program):
                wanted = {"Uid": "\t".join(4 * [str(user.pw_uid)]), "NoNewPrivs": "1", "Seccomp": "2" if sandbox else state["Seccomp"]}
                if not wanted.items() <= state.items():
                    raise Wrong(f"{program.name} is {state}")
        for path, mode, owner in modes(folder):
            if "cluster" not in os.path.basename(path) and (mode & 0o077 or owner != user.pw_uid):
                raise Wrong(f"{path} is of {owner}, {mode:o}")
        cluster.nodes[life].kill()
        cluster.nodes[life].start()
        cluster.nodes[life].wait_up()
        works(cluster, one, 3 * life + 3)
        cluster.stop()
