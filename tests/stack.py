#!/usr/bin/env python3
"""stack.py: the most bytes of stack that each function of the archives takes, its callees' included (memset's own and memcpy's left out)."""
import re
import subprocess


def read(archive):
    """The bytes that each function of an archive takes by itself, and the functions that it calls."""
    frames, calls = {}, {}
    name = None
    for line in subprocess.run(["objdump", "-dr", "-C", archive], capture_output=True, text=True, check=True).stdout.splitlines():
        head = re.match(r"^[0-9a-f]+ <(.*)>:", line)
        if head:
            name = head.group(1)
            frames[name], calls[name] = 8, set()
        elif name:
            room = re.search(r"\tsub +\$0x([0-9a-f]+),%rsp", line)
            callee = re.search(r"R_X86_64_(?:PLT32|PC32)\s+(?:\.text\.)?(\S+?)-0x", line)
            frames[name] += 8 * bool(re.search(r"\tpush ", line)) + (int(room.group(1), 16) if room else 0)
            if callee:
                calls[name].add(callee.group(1))
    return frames, calls


def most(function, frames, calls):
    return frames[function] + max((most(c, frames, calls) for c in calls[function] if c in frames), default=0)


print("| call | bytes of stack |\n|---|---|")
for crate, prefix in (("board", "hiomap_"), ("ipmiboard", "hiomap_"), ("kcsboard", "kcs_")):
    frames, calls = read(f"target/staticlib/lib{crate}.a")
    for function in sorted(frames):
        if function.startswith(prefix):
            print(f"| `{function}` | {most(function, frames, calls)} |")
