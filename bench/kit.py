"""The kit and the modules that it makes: kept under target/bench, and compiled for this machine.

`rt` is run from a folder of links to the kit in which `clang` keeps the module that it is handed and goes on; the kit's own clang
then compiles that module for any machine, as the kit compiles it."""
import os
import shutil
import subprocess
import sys
import tempfile
from pathlib import Path

root = Path(__file__).resolve().parent.parent
kept = root / "target" / "bench"
machine = os.uname().machine
kit = Path(subprocess.check_output(["rt", "doc"], text=True).strip()).parent
clang = kit / "toolchain" / "bin" / "clang"
# what the kit links a program with
runtime = [kit / "c" / "libos_c.a", kit / "c" / "liblibc_c.a"]
second = root / "target" / "second" / "release" / "second"


def linked(there, below, *apart):
    """A folder of links to all of the kit's, but for some."""
    (there / below).mkdir()
    for part in (kit / below).iterdir():
        if part.name not in apart:
            (there / below / part.name).symlink_to(part)


def keeping(there, module):
    """A kit whose clang keeps the module that it is handed. `rt` finds its kit by where it stands itself."""
    linked(there, Path(), "bin", "toolchain")
    linked(there, Path("bin"), "rt", "rtlib.py")
    for part in ("rt", "rtlib.py"):
        shutil.copy(kit / "bin" / part, there / "bin" / part)
    linked(there, Path("toolchain"), "bin")
    linked(there, Path("toolchain/bin"), "clang")
    script = there / "toolchain" / "bin" / "clang"
    script.write_text(f'#!/bin/sh\n[ ! -f module.bc ] || cp module.bc {module}\nexec {clang} "$@"\n')
    script.chmod(0o755)


def is_up_to_date(made):
    sources = [root / "crates.txt", *(path for path in (root / "crates").rglob("*") if "out" not in path.parts)]
    return made.exists() and made.stat().st_mtime >= max(source.stat().st_mtime for source in sources)


def module(name, made, word):
    """The module of what `rt WORD` makes in a crate, at `made`. Where either is missing or older than the crates, it is proved and built."""
    path = kept / f"{name}.bc"
    if is_up_to_date(path) and is_up_to_date(made):
        return path
    kept.mkdir(parents=True, exist_ok=True)
    # what is there is not built again
    made.unlink(missing_ok=True)
    with tempfile.TemporaryDirectory() as folder:
        there = Path(folder)
        keeping(there / "kit", there / "module.bc")
        run = subprocess.run([there / "kit" / "bin" / "rt", word], cwd=root / "crates" / name, stdin=subprocess.DEVNULL, capture_output=True, text=True)
        if run.returncode or not made.exists():
            sys.exit(run.stdout + run.stderr)
        shutil.copyfile(there / "module.bc", path)
    return path


def face():
    """The static library of the face, and its module."""
    archive = root / "crates" / "face" / "out" / "libface.a"
    return archive, module("face", archive, "lib")


def mcvlook():
    return module("mcvlook", root / "crates" / "mcvlook" / "out" / "mcvlook", "run")


def compile_module(source, out, *words, arch=machine):
    flags = ["-Wno-override-module", "-O3", "-fPIC", "-ffunction-sections", "-fdata-sections", "-x", "ir"]
    subprocess.run([clang, f"--target={arch}-unknown-linux-gnu", *flags, *(words or ["-c"]), source, "-o", out], check=True, stderr=subprocess.DEVNULL)


def compile_c(source, out, *words):
    """Compiles C with the same clang and the same flags, over the headers of this machine."""
    headers = [subprocess.check_output(["gcc", word], text=True).strip() for word in ("-print-file-name=include", "-print-multiarch")]
    folders = [word for folder in (headers[0], "/usr/include", f"/usr/include/{headers[1]}") for word in ("-isystem", folder)]
    flags = ["-std=gnu11", "-Wall", "-Wextra", "-Werror", "-O3", "-fPIC", "-ffunction-sections", "-fdata-sections", "-nostdinc", *folders]
    own = ["-I", root / "include", "-I", root / "bench" / "plain"]
    subprocess.run([clang, f"--target={machine}-unknown-linux-gnu", *flags, *own, *words, "-c", source, "-o", out], check=True)


def build_second():
    words = ["cargo", "build", "--quiet", "--offline", "--locked", "--release", "--manifest-path", root / "tests/second/Cargo.toml"]
    subprocess.run(words, env={**os.environ, "CARGO_TARGET_DIR": str(second.parent.parent)}, check=True)
