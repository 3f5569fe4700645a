#!/usr/bin/env python3
"""Copyright files to measure a book with, of packages that are not installed: one package for each source, the smallest, of less than 250 kB, in the
order of the SHA-256 of the source's name. Fetches those from number --first on and writes their copyright files into FOLDER, for measure.py.
Sources that are installed here or that the book has texts of are left out. It needs Debian's apt-get and dpkg, and no root rights."""
import argparse
import glob
import hashlib
import os
import re
import subprocess
import sys
import tempfile

BOOKS = os.path.dirname(os.path.abspath(__file__))
LARGE = 250000  # bytes
AT_ONCE = 50


def stop(message):
    print("sample.py: " + message, file=sys.stderr)
    sys.exit(2)


def output_of(*words):
    try:
        return subprocess.run(words, stdout=subprocess.PIPE, check=True).stdout.decode("utf-8", "replace")
    except (OSError, subprocess.CalledProcessError) as error:
        stop(f"{words[0]}: {error}; this needs Debian, and 'apt-get update' once")


def choose():
    """The smallest package of each source, in the order of the sources' hashes."""
    installed = set(output_of("dpkg-query", "-W", "-f", "${source:Package}\n").split())
    with open(os.path.join(BOOKS, "debian.list"), encoding="ascii") as lines:
        used = {line.split()[1] for line in lines if line.startswith("package ")}
    smallest = {}
    for stanza in output_of("apt-cache", "dumpavail").split("\n\n"):
        field = dict(re.findall(r"^(Package|Source|Size): (\S+)", stanza, re.M))
        if "Size" not in field or int(field["Size"]) > LARGE or field["Package"] in used:
            continue
        source = field.get("Source", field["Package"])
        if source not in installed:
            smallest[source] = min(smallest.get(source, (LARGE + 1, "")), (int(field["Size"]), field["Package"]))
    return [smallest[source][1] for source in sorted(smallest, key=lambda name: hashlib.sha256(name.encode()).hexdigest())]


def unpack(deb, folder):
    """Writes the package's copyright file into the folder, under the package's name; a package may have none."""
    name = os.path.basename(deb).split("_")[0]
    tree = os.path.join(os.path.dirname(deb), "tree")
    subprocess.run(["dpkg-deb", "-x", deb, tree], check=True)
    path = os.path.join(tree, "usr/share/doc", name, "copyright")
    if os.path.isfile(path) and not os.path.islink(path):
        os.replace(path, os.path.join(folder, name))
    subprocess.run(["rm", "-rf", tree], check=True)


def fetch(packages, folder):
    with tempfile.TemporaryDirectory(dir=folder) as work:
        done = subprocess.run(["apt-get", "-o", "APT::Sandbox::User=root", "download", *packages], cwd=work, stdout=subprocess.DEVNULL, check=False)
        if done.returncode != 0:
            print(f"sample.py: some of {packages[0]} .. {packages[-1]} cannot be fetched; they are left out", file=sys.stderr)
        for deb in sorted(glob.glob(os.path.join(work, "*.deb"))):
            unpack(deb, folder)


def main():
    parser = argparse.ArgumentParser(description=__doc__, formatter_class=argparse.RawDescriptionHelpFormatter)
    parser.add_argument("folder", help="where the copyright files go; it is made")
    parser.add_argument("--first", type=int, default=0, help="the number of the first package (0)")
    parser.add_argument("--count", type=int, default=300, help="how many packages (300)")
    args = parser.parse_args()
    os.makedirs(args.folder, exist_ok=True)
    packages = choose()[args.first : args.first + args.count]
    if not packages:
        stop("no such packages; is --first too high?")
    for at in range(0, len(packages), AT_ONCE):
        fetch(packages[at : at + AT_ONCE], args.folder)
    files = [name for name in os.listdir(args.folder) if os.path.isfile(os.path.join(args.folder, name))]
    print(f"{len(packages)} packages, {len(files)} copyright files in {args.folder}")


if __name__ == "__main__":
    main()
