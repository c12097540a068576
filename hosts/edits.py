"""Wrong hosts: each is sblog-node with one edit of tests/campaign/must-fail, and a test has to find it."""
import glob
import os
import re
import shutil
import subprocess

import lives
import stopped
import upgrades
from listening import HERE, begin
from lives import Wrong

EDITS = os.path.join(HERE, "..", "tests", "campaign", "must-fail")
LIBRARY = os.environ.get("LIBRARY") or os.path.join(HERE, "..", "dist")


def once(folder):
    stopped.once(begin(folder).nodes[0])


def of_line(test):
    return lambda folder: test(upgrades.Line(folder))


goes_on = of_line(upgrades.goes_on)
TESTS = {
    "resumes_twice": once, "begins_inputs_at_one": goes_on, "begins_outputs_at_one": goes_on, "drops_untaken_outputs": goes_on,
    "leaves_an_input_behind": of_line(upgrades.many), "has_two_followers": of_line(upgrades.dies),
}


def compile_in(folder, *sources):
    """What hosts/build compiles, without what needs other libraries, and not optimized."""
    words = ["cc", "-std=c11", "-D_GNU_SOURCE", "-O0", "-I", os.path.join(LIBRARY, "include"), "-c"]
    subprocess.run([*words, *sources], check=True, cwd=folder)


def link(folder):
    program, library = os.path.join(folder, "sblog-node"), os.path.join(LIBRARY, "lib", "libsblog.a")
    subprocess.run(["cc", "-o", program, *glob.glob(os.path.join(folder, "*.o")), library, "-pthread"], check=True)
    return program


def build(folder, objects, edit):
    """A program with this edit, whose old line stands once in its file."""
    with open(edit) as file:
        name, old, new = re.fullmatch(r"file: (\S+)\nold: (.*)\nnew: (.*)\n", file.read()).groups()
    shutil.copytree(objects, folder)
    path = os.path.join(folder, name)
    with open(path) as file:
        text = file.read()
    if text.count(old + "\n") != 1:
        raise Wrong(f"{edit}: its old line stands {text.count(old)} times in {name}")
    with open(path, "w") as file:
        file.write(text.replace(old + "\n", new + "\n"))
    compile_in(folder, name)
    return link(folder)


def is_found(test, program, folder):
    """Whether this test finds something wrong of this program."""
    os.environ["SBLOG_NODE"], right = program, lives.program_path()
    try:
        test(folder)
    except Wrong:
        return True
    finally:
        lives.end_all()
        os.environ["SBLOG_NODE"] = right
    return False


def edits(folder):
    found = {os.path.splitext(os.path.basename(edit))[0]: edit for edit in glob.glob(os.path.join(EDITS, "*.edit"))}
    if set(found) != set(TESTS):
        raise Wrong(f"the edits are {sorted(found)}")
    objects = os.path.join(folder, "objects")
    os.makedirs(objects)
    for source in glob.glob(os.path.join(HERE, "*.[ch]")):
        shutil.copy(source, objects)
    compile_in(objects, *glob.glob(os.path.join(objects, "*.c")))
    unedited = link(objects)
    for number, test in enumerate(set(TESTS.values())):
        if is_found(test, unedited, os.path.join(folder, f"unedited-{number}")):
            raise Wrong("a test of an edit finds something without it, too")
    for name, edit in found.items():
        if not is_found(TESTS[name], build(os.path.join(folder, name), objects, edit), os.path.join(folder, name, "cluster")):
            raise Wrong(f"no test finds {name}")
