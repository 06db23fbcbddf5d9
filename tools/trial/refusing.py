"""The library that stands before the heap and refuses requests for memory."""
import os
import shutil
import subprocess


def library(top, folder):
    """The library of tools/refuse.c, made by the toolchain's own clang or by the system's compiler; None if neither makes it."""
    made = os.path.join(folder, "refuse.so")
    words = ["-O2", "-fPIC", "-shared", "-o", made, os.path.join(top, "tools", "refuse.c")]
    # (`rt doc` prints the path of a page that stands at the top of the toolchain)
    page = subprocess.run(["rt", "doc"], capture_output=True, text=True).stdout.strip() if shutil.which("rt") else ""
    kit = os.path.join(os.path.dirname(page), "toolchain", "bin")
    compilers = [[os.path.join(kit, "clang"), f"--ld-path={kit}/ld.lld", "-nostdlib"]] if page else []
    for compiler in [*compilers, ["cc"]]:
        try:
            if subprocess.run([*compiler, *words], capture_output=True).returncode == 0:
                return made
        except OSError:
            pass
    return None
