"""A run of the program on a case, in a folder that has all that is needed to run it again."""
import os
import subprocess
from typing import NamedTuple

SECONDS = 120

# These bytes mean nothing else to a shell, between the quotes of $'..' or without any.
PLAIN_BYTES = set(b"ABCDEFGHIJKLMNOPQRSTUVWXYZabcdefghijklmnopqrstuvwxyz0123456789._/-=")


class Run(NamedTuple):
    """The exit status (or what came in place of one), the bytes on the two outputs, and how much of the input was taken."""
    status: object
    text: bytes
    errors: bytes
    taken: int


def lay_out(case, folder):
    """Writes the case's files and its input."""
    place = os.path.join(folder, "files")
    os.makedirs(place)
    for name, text in case.files.items():
        write(os.path.join(os.fsencode(place), name), text)
    write(os.path.join(folder, "input"), case.formula_input)


def write(path, text):
    if text is None:
        os.makedirs(path)
        return
    with open(path, "wb") as file:
        file.write(text)


def run(program, case, folder):
    """Runs the program in the folder of the case's files, with the input as a file, whose place tells what was taken of it."""
    source = os.open(os.path.join(folder, "input"), os.O_RDONLY)
    try:
        with open("/dev/full", "wb") as full:
            done = subprocess.run([program, *case.words], cwd=os.path.join(folder, "files"), stdin=source, timeout=SECONDS, check=False,
                                  stdout=full if case.output_fails else subprocess.PIPE, stderr=subprocess.PIPE)
        taken = 0 if case.formula_input is None else os.lseek(source, 0, os.SEEK_CUR)
        return Run(done.returncode, done.stdout or b"", done.stderr, taken)
    except subprocess.TimeoutExpired as late:
        return Run(f"none in {SECONDS} s", late.stdout or b"", late.stderr or b"", 0)
    finally:
        os.close(source)


def keep(program, case, folder, wanted, come):
    """Leaves in the folder what was wanted and what came, and a script that runs the program again; answers its command."""
    write(os.path.join(folder, "wanted"), wanted.text)
    write(os.path.join(folder, "printed"), come.text)
    write(os.path.join(folder, "errors"), come.errors)
    words = b" ".join(quoted(word) for word in [os.fsencode(program), *case.words])
    command = words + b" < ../input" + (b" > /dev/full" if case.output_fails else b"")
    script = os.path.join(folder, "again")
    write(script, b'#!/usr/bin/env bash\ncd "$(dirname "$0")/files" && exec ' + command + b"\n")
    os.chmod(script, 0o755)
    return f"cd {os.path.join(folder, 'files')} && {command.decode()}"


def quoted(word):
    if word and PLAIN_BYTES.issuperset(word):
        return word
    return b"$'" + b"".join(bytes([byte]) if byte in PLAIN_BYTES else b"\\x%02x" % byte for byte in word) + b"'"
