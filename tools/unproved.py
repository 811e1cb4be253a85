"""What `rt try` compiles, kept: programs, and the library for C, with their checks at run time and without any proof.

`rt try` compiles a crate to a module for LLVM, has the kit's clang make a program of it for one run, and keeps neither. Here it is
run from a copy of the kit's `bin` whose clang keeps that module and stops, and the real clang optimises the module. The checks stay
in it: a call that breaks a `requires`, an index out of bounds or an overflow ends the process by a signal.
"""
import os
import re
import shutil
import subprocess
import tempfile

TOP = os.path.dirname(os.path.dirname(os.path.realpath(__file__)))
TARGET = "x86_64-unknown-linux-gnu"

# `rt try` compiles the program by the address sanitizer, and before that a module of its own for a test of clang.
KEEPING_CLANG = """#!/bin/sh
case " $* " in *" -fsanitize=address "*) cp module.bc '{kept}' && exit 1 ;; esac
exec '{clang}' "$@"
"""

EXPORTED = re.compile(r'#\[unsafe\(no_mangle\)\]\s+pub extern "C" fn (\w+)\((.*?)\)\s*->', re.S)
# What the program that reaches the library's functions passes to a parameter of this type.
ARGUMENTS = {
    "Global": "rt.alloc()", "&[u8]": 'b""', "&mut [u8]": "&mut out", "&mut usize": "&mut len",
    "u8": "0", "u32": "0", "u64": "0", "usize": "0", "bool": "false",
}


class Failed(Exception):
    """What did not work, for whoever runs the tool."""


def kit():
    """The kit of the `rt` on the path."""
    found = shutil.which("rt")
    if not found:
        raise Failed("the Rattle kit is not on the path: `rt version` has to work")
    return os.path.dirname(os.path.dirname(os.path.realpath(found)))


def called(*words, **how):
    """Runs a command, and fails with the end of its output if it fails."""
    ran = subprocess.run(words, stdin=subprocess.DEVNULL, stdout=subprocess.PIPE, stderr=subprocess.STDOUT, errors="replace", **how)
    if ran.returncode:
        raise Failed(f"{os.path.basename(words[0])} failed:\n{ran.stdout[-3000:]}")
    return ran.stdout


def program(name, to):
    """Compiles and links the program of the crate `name`."""
    with tempfile.TemporaryDirectory(prefix="starlark-") as room:
        compiled(module_of(name, copied(room), room), f"{room}/program.o", "-fPIE")
        c_code = [f"{kit()}/c/{it}" for it in ("libos_c.a", "liblibc_c.a")]
        link = [f"{kit()}/bin/rattle-link", "--target", TARGET, "--toolchain", f"{kit()}/toolchain"]
        called(*link, "-o", to, f"{room}/program.o", *c_code)


def library(name, to):
    """Compiles the static library of the crate `name`, by a program that calls each function which it exports."""
    with tempfile.TemporaryDirectory(prefix="starlark-") as room:
        crates, reaching = copied(room), f"{name}_program"
        names = made_program(f"{crates}/{name}", f"{crates}/{reaching}")
        with open(f"{room}/crates.txt", encoding="utf-8") as it:
            uses = re.search(rf"^{name} staticlib:(.*)$", it.read(), re.M).group(1)
        with open(f"{room}/crates.txt", "a", encoding="utf-8") as it:
            it.write(f"{reaching}:{uses}\n")
        module, text = module_of(reaching, crates, room), f"{room}/module.ll"
        clang = f"{kit()}/toolchain/bin/clang"
        called(clang, "-S", "-emit-llvm", "-O0", "-Xclang", "-disable-llvm-passes", module, "-o", text)
        export(text, reaching, names)
        compiled(text, f"{room}/{name}.o", "-fPIC")
        called(f"{kit()}/toolchain/bin/llvm-ar", "rcs", to, f"{room}/{name}.o")


def copied(room):
    """Copies the sources of all crates, and returns where they are."""
    shutil.copytree(f"{TOP}/crates", f"{room}/crates", ignore=shutil.ignore_patterns("out", "proofs", "wrong", "must-fail"))
    for it in ("crates.txt", "HANDLES"):
        shutil.copy(f"{TOP}/{it}", room)
    return f"{room}/crates"


def module_of(name, crates, room):
    """The module that `rt try` compiles the crate to."""
    kept = f"{room}/module.bc"
    rt = kit_that_keeps(f"{room}/kit", kept)
    how = {"cwd": f"{crates}/{name}", "env": {**os.environ, "TMPDIR": room}, "errors": "replace"}
    said = subprocess.run([rt, "try"], stdin=subprocess.DEVNULL, stdout=subprocess.PIPE, stderr=subprocess.STDOUT, **how).stdout
    if not os.path.isfile(kept):
        raise Failed(f"rt try did not compile {name}:\n{said[-3000:]}")
    return kept


def kit_that_keeps(copy, kept):
    """A copy of the kit, mostly of links, whose clang keeps the module of `rt try`. Returns its `rt`."""
    folders = {"", "bin", "toolchain", "toolchain/bin"}
    for folder in sorted(folders):
        os.mkdir(f"{copy}/{folder}")
        for it in os.listdir(f"{kit()}/{folder}"):
            inside, real = os.path.join(folder, it), os.path.join(kit(), folder, it)
            # `rt` takes the kit that it lies in, and only `rt try` is run, whose check of names by `rattle` nothing here waits for.
            if it in ("rt", "rtlib.py"):
                shutil.copy(real, f"{copy}/{inside}")
            elif inside == "bin/rattle":
                written(f"{copy}/{inside}", "#!/bin/sh\n")
            elif inside == "toolchain/bin/clang":
                written(f"{copy}/{inside}", KEEPING_CLANG.format(kept=kept, clang=real))
            elif inside not in folders:
                os.symlink(real, f"{copy}/{inside}")
    return f"{copy}/bin/rt"


def written(path, text):
    with open(path, "w", encoding="utf-8") as it:
        it.write(text)
    os.chmod(path, 0o755)


def made_program(library, to):
    """Writes a crate of the library's modules and a `main` that calls what they export. Returns those names."""
    shutil.copytree(library, to)
    with open(f"{to}/src/lib.rt", encoding="utf-8") as it:
        root = re.sub(r"^//!.*\n", "", it.read(), flags=re.M)
    os.remove(f"{to}/src/lib.rt")
    calls = []
    for module in re.findall(r"^mod (\w+);", root, re.M):
        with open(f"{to}/src/{module}.rt", encoding="utf-8") as it:
            calls += [(module, name, passed(name, params)) for name, params in EXPORTED.findall(it.read())]
    lines = [f"    let _ = {module}::{name}({words});\n" for module, name, words in calls]
    main = "".join(["\nfn main(rt: HostRuntime) {\n    let mut len = 0;\n    let mut out = [0u8; 1];\n", *lines, "}\n"])
    written(f"{to}/src/main.rt", f"//! A program that calls what the library exports.\n{root}{main}")
    return [name for _, name, _ in calls]


def passed(name, params):
    types = [it.partition(":")[2].strip() for it in params.split(",") if it.strip()]
    if not all(it in ARGUMENTS for it in types):
        raise Failed(f"tools/unproved.py has no argument of each type that {name} takes: {', '.join(types)}")
    return ", ".join(ARGUMENTS[it] for it in types)


def export(file, crate, names):
    """Gives the module's functions of these names their names in C, and takes the name `main` away."""
    with open(file, encoding="utf-8", errors="surrogateescape") as it:
        text = it.read()
    text = text.replace("define i32 @main(", "define internal i32 @main(")
    for name in names:
        found = re.search(rf'^define internal [^@\n]*@("{crate}::[\w:]*\b{name}")\(', text, re.M)
        if not found:
            raise Failed(f"what rt try compiled has no function {name}")
        exported = found.group(0).replace("internal ", "")
        text = text.replace(found.group(0), exported).replace(f"@{found.group(1)}", f"@{name}")
    with open(file, "w", encoding="utf-8", errors="surrogateescape") as it:
        it.write(text)


def compiled(module, to, *flags):
    called(f"{kit()}/toolchain/bin/clang", f"--target={TARGET}", "-O2", *flags, "-ffunction-sections", "-c", module, "-o", to)
