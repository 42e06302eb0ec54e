#!/usr/bin/env python3
"""many-seeds.py FIRST LAST LIST..: the lists of make-vectors.py from other seeds, by hand.

Run it at the top of the repository, with the programs built (by `rt ci`, or by `rt run` in their folders) and the path of a built oracle in the
environment variable ORACLE. For each seed from FIRST to LAST and each LIST it makes the list anew in a folder of its own, runs
crates/LIST_vectors/out/LIST_vectors over it, and holds what that prints to what it prints when every answer is right. At the end it says for each
LIST how many cases ran, and how many of them were different questions (a part of each list is the same from every seed). Nothing in the repository
is written.
"""
import importlib.util
import os
import subprocess
import sys
import tempfile

HERE = os.path.dirname(os.path.abspath(__file__))
sys.path.insert(0, HERE)


def generator():
    spec = importlib.util.spec_from_file_location("make_vectors", os.path.join(HERE, "make-vectors.py"))
    module = importlib.util.module_from_spec(spec)
    spec.loader.exec_module(module)
    return module


def main(first, last, names):
    make = generator()
    programs = {name: os.path.abspath(f"crates/{name}_vectors/out/{name}_vectors") for name in names}
    ran, different, wrong = dict.fromkeys(names, 0), {name: set() for name in names}, 0
    with tempfile.TemporaryDirectory() as folder:
        os.chdir(folder)
        for seed in range(first, last + 1):
            make.SEED = seed
            for name in names:
                os.makedirs(f"crates/{name}_vectors", exist_ok=True)
                with open(os.devnull, "w") as nowhere:
                    sys.stdout, kept = nowhere, sys.stdout
                    try:
                        make.write(name)
                    finally:
                        sys.stdout = kept
                for file in make.LISTS[name]:
                    with open(f"crates/{name}_vectors/data/{file}.txt") as cases:
                        for line in cases:
                            if not line.startswith("#"):
                                ran[name] += 1
                                different[name].add(hash(line))
                told = subprocess.run([programs[name]], cwd=f"crates/{name}_vectors/data", capture_output=True, text=True).stdout
                with open(f"crates/{name}_vectors/stdout") as right:
                    if told != right.read():
                        wrong += 1
                        print(f"{name}, seed {seed}:\n{told}")
    for name in names:
        print(f"{name}: {ran[name]} cases, {len(different[name])} different ones")
    print(f"{wrong} lists with a mismatch")
    return 1 if wrong else 0


if __name__ == "__main__":
    if len(sys.argv) < 4 or "ORACLE" not in os.environ:
        sys.exit(__doc__)
    sys.exit(main(int(sys.argv[1]), int(sys.argv[2]), sys.argv[3:]))
