"""How deep the stack of a call gets, read from assembly: frames summed over the deepest path of calls. On x86-64, return addresses and what a leaf
uses below its stack pointer count too; what memcpy, memset and memmove use is not counted."""
import re
import subprocess
import sys

import kit

PUSHED = {
    "x86_64": [(r"\tpushq\t", 8), (r"\tsubq\t\$(\d+), %rsp", None)],
    "aarch64": [(r"\tst[pr]\t.*\[sp, #-(\d+)\]!", None), (r"\tsub\tsp, sp, #(\d+)", None)],
}
# a function's name, in quotes where it has more than letters, as that of a generic function has
NAME = r"(\"[^\"]+\"|[A-Za-z_][\w:.]*)"
CALLED = {"x86_64": r"\t(?:callq|jmp)\t" + NAME, "aarch64": r"\tbl?\t" + NAME}
RETURN = {"x86_64": 8, "aarch64": 0}
# every call has less than this, but for the one that lays out tables of User IDs
LIMIT = 256
UNBOUNDED = ("mcv_sheet",)
# what the archive leaves to the host, whose stack is not counted
LIBRARY = ("memcpy", "memset", "memmove", "memcmp", "bcmp", "strlen")


def frames(arch, text):
    """Of each function: its frame, what it uses below that, and whom it calls."""
    found, name = {}, None
    for line in text.splitlines():
        label = re.match(NAME + ":", line)
        if label:
            name = label[1]
            found[name] = [0, 0, set()]
        elif name:
            for pattern, octets in PUSHED[arch]:
                for pushed in re.finditer(pattern, line):
                    found[name][0] += octets or int(pushed[1])
            found[name][1] = max([found[name][1], *(int(n) for n in re.findall(r"-(\d+)\(%rsp", line))])
            found[name][2].update(re.findall(CALLED[arch], line))
    return found


def depth(arch, found, name, above=()):
    if name in LIBRARY:
        return RETURN[arch]
    if name in above or name not in found:
        sys.exit(f"bench: {name} is called in a circle, or is not in the module")
    frame, below, calls = found[name]
    return RETURN[arch] + frame + max([below, *(depth(arch, found, c, (*above, name)) for c in calls)])


def depths(work, archive, module):
    """For each function of the archive, the octets of stack on each machine."""
    stacks = {}
    for arch in PUSHED:
        kit.compile_module(module, work / "out.s", "-S", arch=arch)
        stacks[arch] = frames(arch, (work / "out.s").read_text())
    exported = re.findall(r" T (\w+)", subprocess.check_output(["nm", archive], text=True))
    return {name: {arch: depth(arch, found, name) for arch, found in stacks.items()} for name in exported}


def too_deep(deepest):
    """The calls that take LIMIT octets or more on some machine."""
    return [name for name, octets in deepest.items() if name not in UNBOUNDED and max(octets.values()) >= LIMIT]


def text_size(thing):
    """Octets of code in an archive or an object."""
    return int(subprocess.check_output(["size", thing], text=True).split("\n")[1].split()[0])
