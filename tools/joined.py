"""Programs, and crates of tests, that are built as one, for tests: what takes longest in a build is to read the sources of all that it stands on.

Each program becomes a module of a crate that is made for it, in a copy of the sources, and the crate's own `main` begins the one in whose
folder the built program lies: crates/CRATE/out/joined. Nothing else of a program is changed but its paths. It is built unproved, with the
checks of `rt try`. `tools/play` and `tools/install` build each by itself. Crates of tests become modules of a library in the same way.
"""

import os
import re
import shutil
import tempfile

from played import NotBuilt, Refused, below, copied, kit, script, sources, sum_of
from shared import TOP, ran

CRATE = "joined_crates"
# The library whose modules are crates of tests.
LIBRARY = """//! Crates of tests, each in a module.
#![tactic(auto)]

{modules}"""
# The program whose modules are programs.
MAIN = """//! Programs, each in a module, begun by the folder in which this one lies.
#![tactic(auto)]

{modules}
use std::env;
use std::process::ExitCode;

// The number of the program, from 1 on.
fn number(rt: &HostRuntime) -> usize {{
    let Ok(mut words) = env::args(rt) else {{
        return 0;
    }};
    let Some(path) = words.next() else {{
        return 0;
    }};
{names}    0
}}

fn main(rt: HostRuntime) -> ExitCode {{
    match number(&rt) {{
{arms}        _ => ExitCode::from(99),
    }}
}}
"""
# What begins a program, by what its `main` answers, or holds if that is a `Result`.
ARMS = {
    "ExitCode": "crate::{name}::main(rt)",
    "Result<()>": "match crate::{name}::main(rt) {{ Ok(()) => ExitCode::SUCCESS, Err(_) => ExitCode::FAILURE }}",
    "Result<ExitCode>": "match crate::{name}::main(rt) {{ Ok(status) => status, Err(_) => ExitCode::FAILURE }}",
}


def answer_of(name):
    """What a program's `main` answers."""
    with open(f"{TOP}/crates/{name}/src/main.rt", encoding="utf-8") as file:
        found = re.search(r"^fn main\(rt: HostRuntime\) -> (?:anyhow::|io::)?(.+) \{$", file.read(), re.MULTILINE)
    if not found or found[1] not in ARMS:
        raise NotBuilt(f"the `main` of {name} isn't one that programs are joined by; tools/joined.py has those that are")
    return found[1]


def as_module(text, name, is_main):
    """A file of a crate, as one of a module."""
    text = text.replace("crate::", f"crate::{name}::").replace(f"Rattle.{name}.specs.", f"Rattle.{CRATE}.specs.{name}.")
    if not is_main:
        return text
    return re.sub(r"^fn main\(", "pub fn main(", text.replace("#![tactic(auto)]\n", ""), flags=re.MULTILINE)


def write(names, at, are_programs=True):
    """Writes a repository that has the crate of these programs, or of these crates of tests, and all that they stand on."""
    lines = {}
    for name in names:
        lines.update(below(name))
    uses = list(dict.fromkeys(use for name in names for use in lines[name]))
    for name in lines:
        for part in ("src", "specs"):
            if name not in names and os.path.isdir(f"{TOP}/crates/{name}/{part}"):
                shutil.copytree(f"{TOP}/crates/{name}/{part}", f"{at}/crates/{name}/{part}")
    with open(f"{at}/crates.txt", "w", encoding="utf-8") as file:
        for name, of in {**{name: of for name, of in lines.items() if name not in names}, CRATE: uses}.items():
            file.write(f"{name}: {' '.join(of)}\n")
    for file in sources(names):
        name, part, *rest = os.path.relpath(file, f"{TOP}/crates").split(os.sep)
        is_main = part == "src" and rest in (["main.rt"], ["lib.rt"])
        to = f"{at}/crates/{CRATE}/src/{name}.rt" if is_main else os.path.join(f"{at}/crates/{CRATE}", part, name, *rest)
        os.makedirs(os.path.dirname(to), exist_ok=True)
        with open(file, encoding="utf-8") as code, open(to, "w", encoding="utf-8") as copy:
            copy.write(as_module(code.read(), name, is_main))
    modules = "".join(f"mod {name};\n" for name in names)
    if not are_programs:
        script(f"{at}/crates/{CRATE}/src/lib.rt", LIBRARY.format(modules=modules))
        return
    main = {
        "modules": modules,
        "names": "".join(f'    if path.as_str().contains("/{name}/out/") {{\n        return {n};\n    }}\n' for n, name in enumerate(names, 1)),
        "arms": "".join(f"        {n} => {ARMS[answer_of(name)].format(name=name)},\n" for n, name in enumerate(names, 1)),
    }
    script(f"{at}/crates/{CRATE}/src/main.rt", MAIN.format(**main))


def stamp(names, version):
    """A checksum of all that joined programs are built from."""
    crates = {name: of for program in names for name, of in below(program).items()}
    return sum_of(f"{version}\n{MAIN}\n{' '.join(names)}", crates)


def join(names):
    """Builds programs as one, and keeps it for each; what was built of the same sources stays."""
    folder, version = kit()
    wanted = f"{stamp(names, version)} {' '.join(names)}\n"
    if all(kept_stamp(name) == wanted and os.access(path_of(name), os.X_OK) for name in names):
        return
    with tempfile.TemporaryDirectory() as at, copied(folder, 1) as (rt, kept):
        write(names, at)
        status, said = ran([rt, "try", "--steps", "1", "--seconds", "1"], f"{at}/crates/{CRATE}")
        if not os.path.isfile(kept):
            raise Refused(said.strip() or f"rt try failed with status {status}, and said nothing")
        for name in names:
            os.makedirs(os.path.dirname(path_of(name)), exist_ok=True)
            shutil.copy(kept, f"{path_of(name)}.{os.getpid()}")
            os.replace(f"{path_of(name)}.{os.getpid()}", path_of(name))
            with open(f"{path_of(name)}.stamp", "w", encoding="utf-8") as file:
                file.write(wanted)


def joined_tests_pass(names, seconds):
    """Whether the tests of crates that are built as one pass, and what was said."""
    folder, _ = kit()
    with tempfile.TemporaryDirectory() as at, copied(folder, 0) as (rt, _):
        write(names, at, are_programs=False)
        status, said = ran([rt, "try", "--seconds", seconds, "--test"], f"{at}/crates/{CRATE}")
    return status == 0, said


def path_of(name):
    """Where a program lies that was joined with others."""
    return f"{TOP}/crates/{name}/out/joined"


def kept_stamp(name):
    """What stands beside a joined program: its checksum, and with which programs it was joined."""
    try:
        with open(f"{path_of(name)}.stamp", encoding="utf-8") as file:
            return file.read()
    except OSError:
        return None


def joined(name):
    """The path of a program that was joined with others, as its sources are now, if there is one."""
    _, version = kit()
    kept = kept_stamp(name)
    if not kept or not os.access(path_of(name), os.X_OK):
        return None
    names = kept.split()[1:]
    return path_of(name) if kept == f"{stamp(names, version)} {' '.join(names)}\n" else None
