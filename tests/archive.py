"""What tests/host, tests/captures and tests/bench take of what is built from the crates: the library that a host links, and the
programs, each built unless no crate changed since."""
import functools
import os
import shutil
import subprocess

ROOT = os.path.dirname(os.path.dirname(os.path.abspath(__file__)))
EXPORTS = "prambow_c"  # the crate that the library is built from
LIBRARY = os.path.join(ROOT, "target", "staticlib", "libprambow.a")  # under the name that hosts link


class CommandFailed(AssertionError):
    """A command that ended with a status other than 0."""


def path(*parts):
    return os.path.join(ROOT, *parts)


def output(command, given=b"", place=None):
    """What a command prints, on standard output and on standard error."""
    r = subprocess.run(command, input=given, stdout=subprocess.PIPE, stderr=subprocess.PIPE, cwd=place)
    if r.returncode != 0:
        said = (r.stdout[-500:] + r.stderr[-1500:]).decode(errors="replace")
        raise CommandFailed("%s: exit status %d\n%s" % (os.path.basename(command[0]), r.returncode, said))
    return r.stdout.decode(), r.stderr.decode()


def is_built(file):
    """Whether a file is newer than every source of a crate."""
    sources = [os.path.join(d, f) for part in ("src", "specs", "proofs") for c in os.listdir(path("crates")) for d, _, fs in os.walk(path("crates", c, part)) for f in fs]
    return os.path.exists(file) and os.path.getmtime(file) > max(map(os.path.getmtime, sources + [path("crates.txt")]))


@functools.cache
def made(verb, crate, name):
    file = path("crates", crate, "out", name)
    if not is_built(file):
        output(["rt", verb], place=path("crates", crate))
    return file


def built():
    """The archive's path. `rt lib` names it by its crate."""
    os.makedirs(os.path.dirname(LIBRARY), exist_ok=True)
    return shutil.copyfile(made("lib", EXPORTS, "lib%s.a" % EXPORTS), LIBRARY)


def program(name):
    """The path of a program, which `rt ci` leaves there too."""
    return made("run", name, name)
