#!/usr/bin/env python3
"""The code of a program as `rt try` compiles it, with a check at each index, sum, cast and access, for tools that try it. It proves nothing.

    tools/checked.py CRATE OUT.ll      CRATE is a program of the repository, or a library (strm_ffi, strm_mt), whose exports keep their names

It runs `rt try` in a copy of the kit that is made of links, whose clang keeps what it is given to compile, and ends it there. `rt try` takes
programs alone: the library is made one in a copy, whose main names each export once. What was compiled is kept in out/trials by a sum of the sources.
"""
import hashlib
import os
import pathlib
import re
import shutil
import subprocess
import sys
import tempfile

TOOLS = pathlib.Path(__file__).resolve().parent
ROOT, OUT, SKIPPED = TOOLS.parent, TOOLS.parent / "out/trials", 77
FLAGS = ["--target=x86_64-unknown-linux-gnu", "--no-default-config", "-fintegrated-cc1", "-mllvm", "-trap-unreachable"]
LIBRARIES = ("strm_ffi", "strm_mt")
# A small module asks what this clang can do. Behind the program's own `rt try` has nothing more to do.
KEEPS = """#!/bin/bash
[ ! -f module.bc ] || [ "$(stat -c %s module.bc)" -lt 65536 ] || {{ cp module.bc {room}/; exit 1; }}
exec -a "$0" {clang} "$@"
"""
MAIN = """
use std::alloc::Global;

unsafe fn any<'a, T>(at: *mut T) -> &'a mut T {
    unsafe { &mut *at }
}

fn main(rt: HostRuntime) {
    let _ = rt;
    let alloc = unsafe { *any(std::ptr::null_mut::<Global>()) };
    unsafe {
%s
    }
}
"""


def skip(tool):
    """Ends with the status of a trial that can't be made here."""
    print(f"skipped: {tool} is missing")
    sys.exit(SKIPPED)


def needs(*tools):
    """Commands without which a trial is skipped; (command, package) where they have two names."""
    for it in tools:
        command, package = (it, it) if isinstance(it, str) else it
        shutil.which(command) or skip(package)


def sum_of(*paths):
    """A sum of files, by which what was made of them is found again."""
    files = sorted(it for path in paths for it in (path.rglob("*") if path.is_dir() else [path]) if it.is_file())
    return hashlib.sha256(b"".join(hashlib.sha256(it.read_bytes()).digest() for it in files)).hexdigest()[:16]


def kit():
    return pathlib.Path(os.path.realpath(shutil.which("rt") or sys.exit("tools/checked.py: rt is missing"))).parent.parent


def clang():
    return [str(kit() / "toolchain/bin/clang"), *FLAGS]


def linked(room):
    """A copy of the kit: links, but for what is found by where it lies, links followed."""
    for at in ("bin", "toolchain/bin"):
        (room / at).mkdir(parents=True)
    for at, but in ((".", ("bin", "toolchain")), ("bin", ("rt", "rtlib.py")), ("toolchain", ("bin",)), ("toolchain/bin", ("clang",))):
        for it in (kit() / at).iterdir():
            if it.name not in but:
                (room / at / it.name).symlink_to(it)
    for name in ("rt", "rtlib.py"):
        shutil.copy(kit() / "bin" / name, room / "bin")
    keeps = room / "toolchain/bin/clang"
    keeps.write_text(KEEPS.format(room=room, clang=kit() / "toolchain/bin/clang"))
    keeps.chmod(0o755)


def argument(kind):
    """Anything of a type: it is compiled and never run."""
    known = {"Global": "alloc", "&mut [u8]": "&mut []", "&[u8]": "&[]", "bool": "false"}
    return known.get(kind) or ("any(std::ptr::null_mut())" if kind.startswith("&") else "0")


def as_program(tree, library):
    """Copies the crates, the library as a program; the names of its exports."""
    (tree / ".git").mkdir(parents=True)
    shutil.copy(ROOT / "HANDLES", tree)
    (tree / "crates.txt").write_text((ROOT / "crates.txt").read_text().replace(f"{library} staticlib:", f"{library}:"))
    for part in ROOT.glob("crates/*/*"):
        if part.name in ("src", "specs", "proofs"):
            shutil.copytree(part, tree / "crates" / part.parent.name / part.name)
    source = tree / "crates" / library / "src"
    main, calls, names = (source / "lib.rt").read_text(), [], []
    for path in sorted(source.glob("*.rt")):
        for name, words in re.findall(r'^pub extern "C" fn (\w+)\s*\((.*?)\)(?= ->|\s*\n)', path.read_text(), re.S | re.M):
            kinds = [it.split(":", 1)[1].strip() for it in re.split(r",(?![^<]*>)", words) if it.strip()]
            calls.append(f"        let _ = {path.stem}::{name}({', '.join(map(argument, kinds))});")
            main = re.sub(rf"(?m)^mod {path.stem};", f"pub mod {path.stem};", main)
            names.append(name)
    (source / "lib.rt").unlink()
    (source / "main.rt").write_text(main + MAIN % "\n".join(calls))
    return names


def exported(text, library, names):
    """The code with these functions under their C names."""
    for name in names:
        found = re.findall(rf'^define [^\n]*@("{library}::[^"\n]*::{name}")\(', text, re.M)
        if len(found) != 1:
            sys.exit(f"tools/checked.py: {len(found)} functions {name}")
        text = re.sub(rf"^define (?:internal |private |hidden |dso_local )*([^\n]*@){re.escape(found[0])}\(", rf"define \1{name}(", text, flags=re.M)
        text = text.replace(f"@{found[0]}(", f"@{name}(")
    return text


def compile_checked(crate, out):
    with tempfile.TemporaryDirectory() as folder:
        room = pathlib.Path(folder, "kit")
        linked(room)
        names, tree = [], ROOT
        if crate in LIBRARIES:
            tree = pathlib.Path(folder, "tree")
            names = as_program(tree, crate)
        where = {"cwd": tree / "crates" / crate, "env": {**os.environ, "PATH": f"{room / 'bin'}:{os.environ['PATH']}"}}
        how = {"stdin": subprocess.DEVNULL, "stdout": subprocess.PIPE, "stderr": subprocess.STDOUT, "text": True, "errors": "replace"}
        said = subprocess.run([os.environ.get("RT", "rt"), "try"], **where, **how)
        if not (room / "module.bc").exists():
            sys.exit(f"{said.stdout}tools/checked.py: {crate} didn't compile")
        subprocess.run([*clang(), "-S", "-emit-llvm", "-O0", "-x", "ir", room / "module.bc", "-o", out], check=True)
    if names:
        pathlib.Path(out).write_text(exported(pathlib.Path(out).read_text(), crate, names))


def kept(name, sum_, make):
    """A file of out/trials that is made anew where its sum changed."""
    made = OUT / f"{name}-{sum_}"
    if not made.exists():
        OUT.mkdir(parents=True, exist_ok=True)
        for older in OUT.glob(f"{name}-*"):
            older.unlink()
        part = OUT / f"part-{name}-{os.getpid()}"
        make(part)
        part.rename(made)
    return made


def code(crate):
    """The code of a crate, as LLVM's text."""
    def make(part):
        print(f"compiling {crate} with the checks of rt try", flush=True)
        compile_checked(crate, part)
    return kept(f"{crate}.ll", sum_of(*ROOT.glob("crates/*/src"), ROOT / "crates.txt", kit() / "KIT-ID"), make)


def program(crate, name, flags, changed=lambda text: text):
    """The object of a crate, compiled with more flags; its main is program_main."""
    from_ = code(crate)

    def make(part):
        with tempfile.NamedTemporaryFile("w", suffix=".ll") as text:
            text.write(changed(from_.read_text()))
            text.flush()
            subprocess.run([*clang(), "-fPIE", "-O1", *flags, "-c", "-x", "ir", text.name, "-o", part], check=True)
        subprocess.run(["objcopy", "--redefine-sym", "main=program_main", part], check=True)
    return kept(f"{name}.o", sum_of(from_), make)


def linked_with(object_, name, source, *libraries):
    """A program of an object, a C file of tools/targets and libraries."""
    flags = ["-std=gnu99", "-O1", "-Wall", "-Wextra", "-Wconversion", "-Werror", f"-I{ROOT / 'include'}"]
    every = [source, object_, kit() / "c/libos_c.a", kit() / "c/liblibc_c.a", *libraries]
    return kept(name, sum_of(object_, source.parent, ROOT / "include"), lambda part: subprocess.run(["cc", *flags, "-o", part, *every], check=True))


def linked_threads(object_, name, source, flags=(), libraries=()):
    """A program of a C file over include/strm_mt.h: with mt/, an object of strm_mt's exports, and libraries."""
    warnings = ["-Wall", "-Wextra", "-Wconversion", "-pedantic", "-Werror"]

    def make(part):
        with tempfile.TemporaryDirectory() as room:
            objects = []
            for it in [source, *sorted((ROOT / "mt").glob("*.c"))]:
                objects.append(f"{room}/{it.stem}.o")
                words = ["-std=c99", "-g", "-O1", *warnings, *flags, f"-I{ROOT / 'include'}"]
                subprocess.run(["cc", *words, "-c", it, "-o", objects[-1]], check=True)
            every = [*objects, object_, kit() / "c/libos_c.a", kit() / "c/liblibc_c.a", *libraries, "-lpthread"]
            subprocess.run(["cc", "-o", part, *every], check=True)
    return kept(name, sum_of(object_, ROOT / "mt", ROOT / "include"), make)


if __name__ == "__main__":
    if len(sys.argv) != 3:
        sys.exit(__doc__)
    compile_checked(*sys.argv[1:])
