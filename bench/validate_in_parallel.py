"""A plain validator, for bench/parts.sh: computes the SHA-512 of each payload file of a bag by several processes. It
prints the paths of the files that aren't as the bag's manifest says, or are only there or only in the manifest.

usage: validate_in_parallel.py BAG PROCESSES
"""
import hashlib
import multiprocessing
import os
import sys


def differs(entry):
    digest, path = entry
    hashed, buffer = hashlib.sha512(), bytearray(1 << 20)
    with open(path, "rb", buffering=0) as file:
        while count := file.readinto(buffer):
            hashed.update(memoryview(buffer)[:count])
    return hashed.hexdigest() != digest


def main(bag, processes):
    os.chdir(bag)
    with open("manifest-sha512.txt", encoding="utf-8") as lines:
        told = {path: digest for digest, path in (line.rstrip("\n").split("  ", 1) for line in lines)}
    listed = {os.path.join(at, name) for at, _, names in os.walk("data") for name in names}
    both = [(told[path], path) for path in sorted(listed & told.keys())]
    with multiprocessing.Pool(int(processes)) as pool:
        wrong = [path for (_, path), is_wrong in zip(both, pool.map(differs, both)) if is_wrong]
    for path in sorted([*wrong, *(listed ^ told.keys())]):
        print(path)
    return 1 if wrong or listed != told.keys() else 0


sys.exit(main(*sys.argv[1:]))
