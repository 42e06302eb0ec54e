#!/usr/bin/env python3
"""build.py [--behind-ci] archive|object..: proves what other languages link, and builds it.

    tools/build.py archive     target/staticlib/libcollector.a: the exported calls, for C (include/fernweeks.h) and Rust (rust/fernweeks)
    tools/build.py object      target/obj/table2psv.o: the program table2psv, for rust/bench, and beside it the C code that it calls

The archive is that of the crate collector_c, since no crate may stand on a static library; it keeps the name that its users link.

With --behind-ci the libraries below are taken as `rt ci` has just proved and left them, and the crate alone is checked once more; where rt ci
left none, or gave back those of an earlier `rt check`, and without the flag, `rt lib` and `rt run` prove what has changed.
"""
import os
import re
import shutil
import subprocess
import sys

ROOT = os.path.dirname(os.path.dirname(os.path.abspath(__file__)))
RT = shutil.which("rt") or "/opt/rattle/bin/rt"


def crates():
    """The libraries that each crate of crates.txt uses."""
    with open(f"{ROOT}/crates.txt") as lines:
        found = [re.match(r"(\w+)[^:#]*:([^#]*)", line) for line in lines]
    return {m[1]: m[2].split() for m in found if m}


def below(name, uses):
    """The repository's crates below one."""
    found = set()
    for it in uses[name]:
        if it in uses:
            found |= {it} | below(it, uses)
    return found


def rlib(name):
    return f"{ROOT}/crates/{name}/out/rlib/{name}.rlib"


def are_of_ci(names):
    """Whether rt ci left these libraries: beside each other one stands a stamp."""
    return all(os.path.isdir(rlib(it)) and not os.path.isfile(f"{os.path.dirname(rlib(it))}/stamp") for it in names)


def build_over(name, uses, kit, made):
    """Builds a crate over the libraries as they stand, as rt does it."""
    words = [f"{kit}/bin/rattle", "build", "--crate-name", name]
    words += ["src/main.rt"] if os.path.isfile(f"{ROOT}/crates/{name}/src/main.rt") else ["src/lib.rt", "--crate-type", "staticlib"]
    for it in ["std", *uses[name]]:
        words += ["--extern", f"{it}={rlib(it) if it in uses else f'{kit}/rlibs/{it}.rlib'}"]
    for folder in [f"{kit}/rlibs", *sorted(os.path.dirname(rlib(it)) for it in below(name, uses))]:
        words += ["-L", f"dependency={folder}"]
    words += ["--antt-project", f"{kit}/rattle/logic/antt-project.json", "--logic-built", f"{kit}/logic_built"]
    words += ["--toolchain", f"{kit}/toolchain", "--backend", "llvm", "-o", made]
    return subprocess.run(words, cwd=f"{ROOT}/crates/{name}", stdin=subprocess.DEVNULL).returncode


def build(name, verb, made, behind_ci, kit):
    """Proves and builds a crate; what is made stands in its out/."""
    uses = crates()
    if behind_ci and are_of_ci(below(name, uses)):
        os.makedirs(f"{ROOT}/crates/{name}/out", exist_ok=True)
        if build_over(name, uses, kit, made) == 0:
            return
    file = f"{ROOT}/crates/{name}/{made}"
    for it in (file, os.path.splitext(file)[0]):
        if os.path.isfile(it):
            os.remove(it)
    # rt run also runs the program: here on nothing, and what it prints is not looked at
    subprocess.run([RT, verb], cwd=f"{ROOT}/crates/{name}", stdin=subprocess.DEVNULL, stdout=subprocess.DEVNULL if verb == "run" else None)
    if not os.path.isfile(file):
        sys.exit(f"build.py: {name} was not proved, or not built")


def copy(file, to):
    os.makedirs(os.path.dirname(f"{ROOT}/{to}"), exist_ok=True)
    shutil.copyfile(file, f"{ROOT}/{to}")
    print(f"{to} is built", flush=True)


def main(words):
    behind_ci = "--behind-ci" in words
    wanted = [it for it in words if it != "--behind-ci"]
    if not wanted or not {*wanted} <= {"archive", "object"}:
        sys.exit(__doc__)
    if not os.access(RT, os.X_OK):
        sys.exit("the Rattle toolchain is missing: there is no 'rt' on the PATH, and none in /opt/rattle/bin")
    kit = os.path.dirname(subprocess.run([RT, "doc"], capture_output=True, text=True, check=True).stdout.strip())
    if "archive" in wanted:
        build("collector_c", "lib", "out/libcollector_c.a", behind_ci, kit)
        copy(f"{ROOT}/crates/collector_c/out/libcollector_c.a", "target/staticlib/libcollector.a")
    if "object" in wanted:
        build("table2psv", "run", "out/table2psv.o", behind_ci, kit)
        copy(f"{ROOT}/crates/table2psv/out/table2psv.o", "target/obj/table2psv.o")
        for it in ("libos_c.a", "liblibc_c.a"):
            copy(f"{kit}/c/{it}", f"target/obj/{it}")


if __name__ == "__main__":
    main(sys.argv[1:])
