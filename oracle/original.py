"""The original Rust as a program that answers questions (README.md), for each edition.

Edition 1 is built of the files as published. Editions 2 and 3 are one program, built of a copy of them in target/mended, in which the one pattern of
line pass 4 is mended: `\\x2044`, which reads as a space and two 4s, becomes `\\x{2044}`. What edition 3 takes besides, the original takes by itself.
"""

import hashlib
import os
import subprocess

HERE = os.path.dirname(os.path.abspath(__file__))
MENDED = os.path.join(HERE, "target", "mended")
SLIP, MEANT = r"\x2044", r"\x{2044}"


class Trouble(Exception):
    """The comparison could not be made."""


def unchanged():
    """The original's files are as published."""
    with open(os.path.join(HERE, "original.sha256")) as sums:
        for line in sums:
            digest, name = line.split()
            with open(os.path.join(HERE, name), "rb") as source:
                if hashlib.sha256(source.read()).hexdigest() != digest:
                    raise Trouble(f"{name} is not the original's")


def sources():
    """What the program is built of: each file's path from here, and what it holds."""
    paths = [os.path.join(folder, name) for folder, _, names in os.walk(os.path.join(HERE, "src")) for name in names]
    for path in [os.path.join(HERE, "Cargo.toml"), *paths]:
        with open(path, encoding="utf-8") as source:
            yield os.path.relpath(path, HERE), source.read()


def hold(path, text):
    """Leaves a file that holds this text already, so that cargo builds nothing anew."""
    if os.path.exists(path):
        with open(path, encoding="utf-8") as file:
            if file.read() == text:
                return
    os.makedirs(os.path.dirname(path), exist_ok=True)
    with open(path, "w", encoding="utf-8") as file:
        file.write(text)


def mended():
    """The folder of the mended copy, brought up to date. The slip stands in one place, and nothing else is changed."""
    files = dict(sources())
    slips = sum(text.count(SLIP) for text in files.values())
    if slips != 1:
        raise Trouble(f"{SLIP} stands {slips} times in the original, not once")
    for name, text in files.items():
        hold(os.path.join(MENDED, name), text.replace(SLIP, MEANT))
    return MENDED


def program(edition):
    """The path of the program of this edition, built where it is missing or old."""
    unchanged()
    folder = HERE if edition == 1 else mended()
    if subprocess.run(["cargo", "build", "--release", "--quiet"], cwd=folder).returncode != 0:
        raise Trouble(f"the oracle of edition {edition} does not build")
    return os.path.join(folder, "target", "release", "oracle")
