"""What the parts of `tests/run` share: a file in a part's folder, and a call of a program there."""
import os
import subprocess


def write(folder, name, text):
    with open(os.path.join(folder, name), "wb") as file:
        file.write(text if isinstance(text, bytes) else text.encode())
    return name


def call(program, words, folder, out=subprocess.PIPE, **more):
    """The call that is done, with its status and the bytes on both outputs. It has ten minutes, and reads nothing."""
    more = {"stdin": subprocess.DEVNULL, "stdout": out, "stderr": subprocess.PIPE, "timeout": 600, **more}
    return subprocess.run([program] + words, cwd=folder, **more)
