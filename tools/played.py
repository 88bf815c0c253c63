"""`rt try` from a copy of the kit: without its hints, which take as long as the try, and with programs that are kept: crates/CRATE/out/played.

`rt try` builds a program, runs it without a terminal, and keeps nothing. So it is run here from a folder that is the kit but for two
files: the prover, which ends at once, since `rt try` has it only look for names that a check would refuse; and the linker, which keeps
what it linked, an ordinary program. If it then ends in an error, the program isn't run.
tools/test tries so, tools/play begins what was kept, tools/look looks at it, and tools/install installs it if there is none that was
built over proofs.
"""

import contextlib
import glob
import hashlib
import os
import shutil
import tempfile

from shared import TOP, ran

LINKER = """#!/bin/bash
# Links, and keeps the program. If this fails then, rt try doesn't run it. rt try passes no variables on.
(exec -a ld.lld {linker} "$@") || exit
before=
for word in "$@"; do
    [ "$before" != -o ] || cp "$word" {kept}
    before=$word
done
exit {status}
"""


class NotBuilt(Exception):
    """Why there is no program."""


class Refused(NotBuilt):
    """What `rt try` said of code that it refused."""


def below(crate):
    """The lines of crates.txt of a crate and of all that it stands on, by name."""
    lines = {}
    with open(f"{TOP}/crates.txt", encoding="utf-8") as file:
        for line in file:
            names = line.split("#")[0].partition(":")
            if names[0].strip():
                lines[names[0].split()[0]] = names[2].split()
    found, todo = {}, [crate]
    while todo:
        name = todo.pop()
        if name in lines and name not in found:
            found[name] = lines[name]
            todo += lines[name]
    return found


def sources(crates):
    """The files of the code and the definitions of crates, in order."""
    for name in sorted(crates):
        for part in ("src", "specs"):
            yield from sorted(file for file in glob.glob(f"{TOP}/crates/{name}/{part}/**", recursive=True) if os.path.isfile(file))


def kit():
    """The folder of the kit, and what it says of itself."""
    found = shutil.which("rt")
    if not found:
        raise NotBuilt("there is no rt: the Rattle kit's bin folder has to be in PATH")
    status, said = ran([found, "version"])
    if status:
        raise NotBuilt(f"rt version failed: {said.strip()}")
    return os.path.dirname(os.path.dirname(os.path.realpath(found))), said.strip()


def sum_of(first, crates):
    """A checksum of some words, and of the lines and the sources of crates."""
    sums = hashlib.sha256(f"{first}\n{sorted(crates.items())}\n".encode())
    for file in sources(crates):
        with open(file, "rb") as code:
            content = code.read()
        sums.update(f"{os.path.relpath(file, TOP)} {len(content)}\n".encode() + content)
    return sums.hexdigest()


def stamp(crate, version):
    """A checksum of all that a program is built from."""
    return sum_of(f"{version}\n{LINKER}", below(crate))


def copy_of_kit(folder, at, kept, status):
    """Makes a folder that is the kit but for its prover and its linker, of links; but rt finds its kit from where its own file lies."""
    for name in set(os.listdir(folder)) - {"bin", "toolchain"}:
        os.symlink(f"{folder}/{name}", f"{at}/{name}")
    for part in ("bin", "toolchain", "toolchain/bin"):
        os.mkdir(f"{at}/{part}")
        for name in set(os.listdir(f"{folder}/{part}")) - {"bin", "ld.lld"}:
            if part == "bin" and name.startswith("rt"):
                shutil.copy(f"{folder}/{part}/{name}", f"{at}/{part}/{name}")
            elif (part, name) != ("bin", "rattle"):
                os.symlink(f"{folder}/{part}/{name}", f"{at}/{part}/{name}")
    script(f"{at}/toolchain/bin/ld.lld", LINKER.format(linker=f"'{folder}/toolchain/bin/ld.lld'", kept=f"'{kept}'", status=status))
    script(f"{at}/bin/rattle", "#!/bin/sh\nexit 1\n")


def script(at, text):
    """Writes a script."""
    with open(at, "w", encoding="utf-8") as file:
        file.write(text)
    os.chmod(at, 0o755)


@contextlib.contextmanager
def copied(folder, status):
    """The rt of a copy of the kit, and where the program is that its linker kept; the linker ends with the status."""
    with tempfile.TemporaryDirectory() as place:
        os.mkdir(f"{place}/kit")
        try:
            copy_of_kit(folder, f"{place}/kit", f"{place}/kept", status)
        except OSError as error:
            raise NotBuilt(f"this kit isn't laid out as is known here ({error}), so it can't be copied: call rt try itself") from error
        yield f"{place}/kit/bin/rt", f"{place}/kept"


def put(program, crate, version):
    """Keeps a program that was built of a crate as it is now."""
    made = f"{TOP}/crates/{crate}/out/played"
    os.makedirs(os.path.dirname(made), exist_ok=True)
    shutil.copy(program, f"{made}.{os.getpid()}")
    os.replace(f"{made}.{os.getpid()}", made)
    with open(f"{made}.stamp", "w", encoding="utf-8") as file:
        file.write(f"{stamp(crate, version)}\n")


def build(crate, folder, version):
    """Builds a program with the kit of a folder, and keeps it."""
    with copied(folder, 1) as (rt, kept):
        status, said = ran([rt, "try", "--steps", "1", "--seconds", "1"], f"{TOP}/crates/{crate}")
        if not os.path.isfile(kept):
            if "run=ended" in said:
                raise NotBuilt("this kit links in a way that isn't known here, so no program can be kept: rt try runs one, without keys")
            raise Refused(said.strip() or f"rt try failed with status {status}, and said nothing")
        put(kept, crate, version)


def tried(crate, *words):
    """What `rt try` said of a crate, and its status; a program is kept."""
    folder, version = kit()
    with copied(folder, 0) as (rt, kept):
        told = ran([rt, "try", *words], f"{TOP}/crates/{crate}")
        if os.path.isfile(kept) and is_program(crate) and not {"--test", "--fail-alloc"} & {*words}:
            put(kept, crate, version)
    return told


@contextlib.contextmanager
def refusing(crate, number):
    """A program that is refused its request for memory of this number, as `rt try --fail-alloc` builds it."""
    folder, _ = kit()
    with copied(folder, 1) as (rt, kept):
        _, said = ran([rt, "try", "--steps", "1", "--seconds", "1", "--fail-alloc", str(number)], f"{TOP}/crates/{crate}")
        if not os.path.isfile(kept):
            raise Refused(said.strip() or "rt try said nothing")
        yield kept


def is_program(crate):
    """Whether a crate is a program."""
    return os.path.isfile(f"{TOP}/crates/{crate}/src/main.rt")


def played(crate, tell=lambda line: None):
    """The path of a program that was built unproved: it is built where its sources, or the kit, are others than at the last time."""
    if not is_program(crate):
        raise NotBuilt(f"{crate} is a library, so there is no program to play")
    folder, version = kit()
    made = f"{TOP}/crates/{crate}/out/played"
    wanted = stamp(crate, version)
    try:
        with open(f"{made}.stamp", encoding="utf-8") as file:
            is_fresh = file.read().strip() == wanted and os.access(made, os.X_OK)
    except OSError:
        is_fresh = False
    if not is_fresh:
        tell(f"building {crate} unproved, which takes up to a minute ..")
        build(crate, folder, version)
    return made


def proved(crate):
    """The path of the program that `.ci/run` or `rt run` built over proofs, if there is one, and whether it is older than its sources."""
    made = f"{TOP}/crates/{crate}/out/{crate}"
    if not os.access(made, os.X_OK):
        return None, False
    return made, any(os.path.getmtime(file) > os.path.getmtime(made) for file in sources(below(crate)))


def ready(crate, tell=lambda line: None):
    """The path of a program as its sources are now: the one that was built over proofs, or else one that is built unproved."""
    made, is_old = proved(crate)
    return made if made and not is_old else played(crate, tell)


def reads_keys(crate):
    """Whether a program can read a terminal's keys: whether it stands on what decodes them."""
    return "ratatui_input" in below(crate)
