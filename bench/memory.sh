#!/usr/bin/env bash
# The memory of the proved `serve`: that it takes none while it runs, so that its peak is the same after 10 and after 10,000
# commands with the largest bodies and payloads; and how it ends with less. The manual has these figures.
. "$(dirname "$0")/served.sh"
python3 -B - "$top/examples" "${serve[@]}" <<'END_OF_PYTHON'
import resource
import subprocess
import sys

sys.path.insert(0, sys.argv[1])
from client import Algorithm, Kind, Module, Role, parts_of_sealed

program = sys.argv[2:]
status = bytes.fromhex("c501040000000000")
FEW, MANY = 10, 10_000
# Of a resident size, which the system counts in lumps.
INEXACT = 256


def ready(module):
    module.power_on(0)
    module.run_tests()
    module.select_role(Role.Officer)
    module.enter(0, Kind.AesKey, bytes(32))
    module.enter(1, Kind.MacKey, bytes(32))
    module.select_role(Role.User)


def peak(count):
    """Resident memory and address space at most, in KiB, of a module that did so many commands."""
    with Module(program) as module:
        ready(module)
        asks = [
            lambda: module.hash(Algorithm.SHA512, bytes(65_599)),
            lambda: module.mac(1, Algorithm.SHA256, 32, bytes(65_597)),
            lambda: module.seal(0, bytes(65_594)),
            lambda: module.open(0, *parts_of_sealed(sealed)),
            lambda: module.random(65_536),
        ]
        sealed = module.seal(0, bytes(65_565)).payload
        for k in range(count):
            if not asks[k % len(asks)]().is_ok:
                sys.exit(f"memory: FAILED: command {k} was refused")
        with open(f"/proc/{module.process.pid}/status", encoding="ascii") as told:
            sizes = dict(line.split(":", 1) for line in told)
        return [int(sizes[name].split()[0]) for name in ("VmHWM", "VmPeak")]


few, many = peak(FEW), peak(MANY)
for count, (resident, space) in ((FEW, few), (MANY, many)):
    print(f"after {count} commands: resident at most {resident} kB, address space at most {space} kB")
if few[1] != many[1] or many[0] - few[0] > INEXACT:
    sys.exit("memory: FAILED: memory was taken while it ran")

before = None
for kib in range(50, 65_536, 50):
    limit = lambda: resource.setrlimit(resource.RLIMIT_AS, (1024 * kib, 1024 * kib))
    ran = subprocess.run(program, input=status, stdout=subprocess.PIPE, stderr=subprocess.PIPE, preexec_fn=limit)
    text = ran.stderr.decode("utf-8", "replace").strip().split("\n")[-1][-60:]
    if (ran.returncode, len(ran.stdout)) != before:
        print(f"from {kib} KiB of address space on: exit status {ran.returncode} {text}")
        before = (ran.returncode, len(ran.stdout))
    if ran.returncode == 0:
        break
END_OF_PYTHON
