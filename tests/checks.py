"""What the tests of tools and pages share: checks that are counted, commands that are run, and the programs of the independent one."""
import os
import subprocess

TOP = os.path.dirname(os.path.dirname(os.path.realpath(__file__)))
BUILT = os.path.join(TOP, "target", "independent")

counts = {True: 0, False: 0}


def check(good, name, said=""):
    counts[bool(good)] += 1
    if not good:
        print(f"FAILED: {name}" + (f": {str(said)[:600]}" if said else ""))
    return bool(good)


def told():
    """Prints the last line, and gives the exit status. A test that checked nothing has failed."""
    print(f"{counts[True]} passed, {counts[False]} failed")
    return 1 if counts[False] or not counts[True] else 0


def run(command, given=b"", folder=TOP, environment=None):
    """Exit status, bytes on standard output, text on standard error."""
    pipe = subprocess.PIPE
    done = subprocess.run(command, input=given, stdout=pipe, stderr=pipe, cwd=folder, env=environment, timeout=300)
    return done.returncode, done.stdout, done.stderr.decode(errors="replace")


def one_line(said, *pieces):
    """Whether it is one line, and has each piece."""
    return said.endswith("\n") and said.count("\n") == 1 and all(piece in said for piece in pieces)


def independent(name):
    """A program of the independent one, built if it is missing."""
    path = os.path.join(BUILT, "release", name)
    if not os.path.exists(path):
        manifest = os.path.join(TOP, "tests", "independent", "Cargo.toml")
        build = ["cargo", "build", "--release", "--offline", "--quiet", "--manifest-path", manifest, "--target-dir", BUILT]
        subprocess.run(build, check=True)
    return path
