"""Tests the installed library for c/test: installs it into a folder, moves that, and uses it there from C, C++, CMake,
Rust and Python. Compares the files that state the version."""

import hashlib
import os
import re
import shutil
import subprocess

from kit import HERE, TOP, captured, compiler, version
from python_module import run_python
from tally import note, skip
from wrapper import RUST, cargo

WARNINGS = ["-O1", "-Wall", "-Wextra", "-Werror", "-pedantic"]
TOOLS = ["make", "cc", "ld", "objcopy", "ar", "nm", "realpath", "tar", "gzip"]
REQUEST = os.path.join(HERE, "examples", "request.c")
# The files that state the version, each with the line that does. In the changelog, that is the first numbered heading.
STATED = {
    "c/include/netlink_packet.h": r'(?m)^#define NLP_VERSION "(.*)"$',
    "rust/Cargo.toml": r'(?m)^version = "(.*)"$',
    "rust/Cargo.lock": r'(?m)^name = "netlink-packet-proved"\nversion = "(.*)"$',
    "docs/C.md": r"The version is (\S+) \(`NLP_VERSION`\)",
    "CHANGELOG.md": r"(?m)^## (\d\S*) \(\d{4}-\d\d-\d\d\)$",
}


def run(words, text=True, **variables):
    """Runs a command."""
    return subprocess.run(words, capture_output=True, text=text, env={**os.environ, **variables})


def is_request(words, **variables):
    """Returns whether a program writes the captured request."""
    with open(captured("link-mtu-request")[0], "rb") as file:
        return run(words, text=False, **variables).stdout == file.read()


def run_not_built(folder):
    """Tests that make names c/build in a clone in which it was not run."""
    copy = shutil.copytree(HERE, os.path.join(folder, "c"), ignore=shutil.ignore_patterns("out"))
    made = run(["make", "-C", copy])
    note("make without a library names c/build", made.returncode != 0 and "run c/build" in made.stderr, made.stderr)


def installed(folder):
    """Installs the library, moves all that was installed, and returns its prefix there, or None."""
    stage = os.path.join(folder, "stage")
    made = run(["make", "-C", HERE, "install", "PREFIX=/opt/netlink", f"DESTDIR={stage}"])
    note("the library is installed", made.returncode == 0, made.stdout[-1000:] + made.stderr[-1000:])
    if made.returncode:
        return None
    return shutil.move(os.path.join(stage, "opt", "netlink"), os.path.join(folder, "moved"))


def run_packed(folder):
    """Tests that the packed library serves a folder without the repository: a program is compiled and run there, with
    the static library and with the shared one. Packing again makes the same file."""
    name = f"netlink_packet-{version()}-x86_64-linux"
    packed = os.path.join(HERE, "out", f"{name}.tar.gz")
    digests = []
    for _ in range(2):
        made = run(["make", "-C", HERE, "dist"])
        with open(packed, "rb") as file:
            digests.append(hashlib.sha256(file.read()).hexdigest())
    note("the library is packed", made.returncode == 0 and digests[0] == digests[1], made.stdout[-1000:] + made.stderr[-1000:])
    alone = os.path.join(folder, "alone")
    os.mkdir(alone)
    shutil.copy(REQUEST, alone)
    run(["tar", "-C", alone, "-xzf", packed])
    there = {os.path.relpath(os.path.join(at, it), alone) for at, _, names in os.walk(alone) for it in names}
    wanted = {"LICENSE", "C.md", *(f"python/netlink_packet{it}.py" for it in ("", "_route", "_tables")), "lib/libnetlink_packet.a", "lib/libnetlink_packet.so"}
    wanted |= {f"include/netlink_packet{it}.h" for it in ("", "_socket", "_route", "_route_write", "_tables")}
    note("what is packed", {f"{name}/{it}" for it in wanted} <= there, f"{sorted(there)}")
    with open(os.path.join(alone, name, "C.md")) as file:
        linked = {f"{name}/{it}" for it in re.findall(r"\]\(([^)#:]+)\)", file.read())}
    note("the links of the packed manual", len(linked) > 5 and linked <= there, f"{sorted(linked - there)}")
    for way in "lib/libnetlink_packet.a", "lib/libnetlink_packet.so":
        words = [compiler(), "-std=c11", *WARNINGS, "request.c", "-I", f"{name}/include", f"{name}/{way}", "-o", "request"]
        made = subprocess.run(words, cwd=alone, capture_output=True, text=True)
        holds = made.returncode == 0 and is_request([os.path.join(alone, "request")], LD_LIBRARY_PATH=os.path.join(alone, name, "lib"))
        note(f"a program with the packed {way}", holds, made.stderr)


def run_symbols(lib):
    """Tests that both libraries define exactly the functions of the headers, and the name of the shared one."""
    declared = set()
    for header in "netlink_packet.h", "netlink_packet_route.h":
        with open(os.path.join(HERE, "include", header)) as file:
            declared.update(re.findall(r"(?m)^(?:uint32_t|bool|void) (nlp_\w+)\(", file.read()))
    for name, option in ("libnetlink_packet.so", "-D"), ("libnetlink_packet.a", "-g"):
        listed = run(["nm", option, "--defined-only", os.path.join(lib, name)]).stdout
        defined = set(re.findall(r"(?m) [A-Z] (\w+)$", listed))
        note(f"the symbols of {name}", defined == declared and len(declared) > 30, f"{defined ^ declared}")
    dynamic = run(["objdump", "-p", os.path.join(lib, "libnetlink_packet.so")]).stdout
    note("the name of the shared library", re.search(r"SONAME +libnetlink_packet\.so\.\d+\n", dynamic), dynamic)


def run_c(prefix, lib, folder):
    """Builds a program by pkg-config, with the shared library, and one with the static library."""
    program = os.path.join(folder, "request")
    words = [compiler(), "-std=c11", *WARNINGS, REQUEST, "-o", program]
    include = os.path.join(prefix, "include")
    made = run([*words, "-I", include, os.path.join(lib, "libnetlink_packet.a")])
    note("a program with the static library", made.returncode == 0 and is_request([program]), made.stderr)
    if not shutil.which("pkg-config"):
        skip("pkg-config", "the machine has no pkg-config")
        return
    package = {"PKG_CONFIG_LIBDIR": os.path.join(lib, "pkgconfig")}
    flags = run(["pkg-config", "--cflags", "--libs", "netlink_packet"], **package).stdout.split()
    made = run([*words, *flags])
    holds = made.returncode == 0 and is_request([program], LD_LIBRARY_PATH=lib)
    note("a program by pkg-config", holds, made.stderr)
    found = run(["pkg-config", "--modversion", "netlink_packet"], **package).stdout
    note("the version that pkg-config prints", found == f"{version()}\n", found)


def run_plus(prefix, lib, folder):
    """Builds a program in C++."""
    if not shutil.which("c++"):
        skip("cplusplus", "the machine has no C++ compiler")
        return
    program = os.path.join(folder, "plus")
    for standard in "c++11", "c++17":
        words = ["c++", f"-std={standard}", *WARNINGS, os.path.join(HERE, "tests", "plus.cpp"), "-o", program]
        made = run([*words, "-I", os.path.join(prefix, "include"), "-L", lib, "-lnetlink_packet"])
        holds = made.returncode == 0 and run([program], LD_LIBRARY_PATH=lib).stdout == "4: 1400\n"
        note(f"a program in {standard}", holds, made.stderr)


def run_cmake(prefix, folder):
    """Builds a project by CMake with the shared and with the static library. Asks for a newer version, and for an older
    one with another second number, which this one does not replace."""
    if not shutil.which("cmake"):
        skip("cmake", "the machine has no CMake")
        return
    build, wanted = os.path.join(folder, "build"), version().rpartition(".")[0]
    words = ["cmake", "-S", os.path.join(HERE, "tests", "cmake"), f"-DCMAKE_PREFIX_PATH={prefix}"]
    made = run([*words, "-B", build, f"-DWANTED={wanted}"])
    note("the version that CMake finds", f"-- netlink_packet {version()}\n" in made.stdout, made.stdout + made.stderr)
    made = run(["cmake", "--build", build]) if made.returncode == 0 else made
    for name in "netlink_packet", "static":
        holds = made.returncode == 0 and is_request([os.path.join(build, f"request_{name}")])
        note(f"a project by CMake: {name}", holds, made.stdout[-1000:] + made.stderr[-1000:])
    for other in "9.9", "0.1":
        made = run([*words, "-B", f"{build}-{other}", f"-DWANTED={other}"])
        holds = made.returncode != 0 and f'compatible with requested version "{other}"' in made.stderr
        note(f"CMake finds no version {other}", holds, made.stderr)


def run_wrapper(prefix, lib, folder):
    """Builds the Rust wrapper over the installed library, which NETLINK_PACKET_DIR names or pkg-config finds."""
    if not shutil.which("cargo"):
        return
    copy = shutil.copytree(RUST, os.path.join(folder, "rust"), ignore=shutil.ignore_patterns("target"))
    ways = [{"NETLINK_PACKET_DIR": prefix}]
    if shutil.which("pkg-config"):
        ways.append({"PKG_CONFIG_LIBDIR": os.path.join(lib, "pkgconfig")})
    with open(captured("link-mtu-request")[0], "rb") as file:
        wanted = file.read()
    for way in ways:
        made = cargo("run", "--example", "request", folder=copy, text=False, **way)
        note(f"the wrapper by {[*way][0]}", made.stdout == wanted, made.stderr.decode()[-2000:])


def run_versions():
    """Tests that each file that states the version has that of c/VERSION."""
    for name, line in STATED.items():
        with open(os.path.join(TOP, name)) as file:
            found = re.search(line, file.read())
        holds = found and found[1] == version()
        note(f"the version in {name}", holds, f"{found[1] if found else 'none'} instead of {version()}")


def run_installed(folder):
    """Runs all, if the tools that the Makefile calls are installed."""
    run_versions()
    missing = [it for it in TOOLS if not shutil.which(it)]
    if missing:
        skip("install", f"the machine has no {' and no '.join(missing)}")
        return
    run_not_built(folder)
    prefix = installed(folder)
    if prefix:
        lib = os.path.join(prefix, "lib")
        run_symbols(lib)
        run_c(prefix, lib, folder)
        run_plus(prefix, lib, folder)
        run_cmake(prefix, folder)
        run_wrapper(prefix, lib, folder)
        run_python(os.path.join(lib, "libnetlink_packet.so.2"))
        run_packed(folder)
