#!/usr/bin/env python3
"""Runs one process over many commands, and then with failing outputs and unusual files.

long_run.py PROGRAM COMMANDS [OBJECT..] sends COMMANDS commands to one process: mostly addresses,
and also loads, moves and unloads. It compares the replies with the reference session
(plain_session.py). Small OBJECTs may be added. It fails if
- a reply differs;
- memory or descriptors do not return to their earlier values after all modules are unloaded;
- a full or closed output, a folder, a pipe, an endless device, a file at the limit of 1 GiB or a
  file that shrinks is not handled as the README says.
"""
import functools
import os
import random
import subprocess
import sys
import tempfile
import threading
import time
from pathlib import Path

from fuzz import LINES, REAL, SAMPLE, TOP, Differs, Run, links
from fuzz_mutants import random_object
from plain_module import PlainModule

LIMIT = 1 << 30
LOADED = b"loaded a 0x0000000000001000-0x0000000000002000\n"
failures = []


def expect(what, found, *wanted):
    is_good = found in wanted
    missed = "" if is_good else f", WANTED {wanted}"
    print(f"{what}: {str(found)[:100]}{missed}", flush=True)
    if not is_good:
        failures.append(what)


def state(process):
    """Returns the resident memory and its peak in KB, and the number of open descriptors."""
    lines = Path(f"/proc/{process.pid}/status").read_text().splitlines()
    status = {line.split(":")[0]: line.split()[1] for line in lines if line.startswith("Vm")}
    return int(status["VmRSS"]), int(status["VmHWM"]), len(os.listdir(f"/proc/{process.pid}/fd"))


def objects(paths):
    """Returns samples, the named objects and random objects: some are valid, some are not."""
    found = [SAMPLE.read_bytes(), REAL.read_bytes(), SAMPLE.read_bytes()[:500]]
    found += [Path(path).read_bytes() for path in paths]
    return found + [random_object(random.Random(seed)) for seed in range(60)]


def one_command(chance, run, paths):
    name, how = b"m%d" % chance.randrange(24), chance.random()
    base = chance.randrange(64) << 20
    if how < 0.9 and run.session.modules:
        base, module = run.session.modules[chance.choice(list(run.session.modules))]
        run.say(b"%x" % (base + links(chance, module, 1)[0] & TOP))
    elif how < 0.96:
        run.say(b"load %s %x %s" % (name, base, chance.choice(paths)))
    elif how < 0.975:
        run.say(b"unload " + name)
    elif how < 0.99:
        run.say(b"move %s %x" % (name, base))
    else:
        run.say(b"list" if how < 0.992 else chance.choice(LINES))


def crowd(run, path):
    """Loads one module more than the limit, looks up addresses in some of them, and returns the
    state with all of them loaded."""
    for number in range(4097):
        run.say(b"load c%d %x %s" % (number, number << 12, path))
    for number in range(0, 4096, 16):
        run.say(b"%x" % ((number << 12) + 0x1004))
    run.say(b"list")
    run.compare()
    return state(run.process)


def empty(run):
    """Unloads all modules and returns the state."""
    for name in list(run.session.modules):
        run.say(b"unload " + name)
    run.say(b"list")
    run.compare()
    return state(run.process)


def stay_up(program, commands, folder, named):
    """Sends the commands in ten parts. Unloads all modules after each part and compares the
    states."""
    paths = []
    for number, data in enumerate(objects(named)):
        paths.append(bytes(folder / f"o{number}"))
        Path(os.fsdecode(paths[-1])).write_bytes(data)
    PlainModule.frames = functools.lru_cache(maxsize=100_000)(PlainModule.frames)
    run, chance, start = Run(program, "fi", folder), random.Random(7), time.monotonic()
    try:
        states = []
        for _ in range(10):
            until = run.count + commands // 10
            while run.count < until:
                one_command(chance, run, paths)
            states.append(empty(run))
            resident, peak, descriptors = states[-1]
            print(f"after {run.count} commands: {resident} KB resident, {peak} KB at the peak, "
                  f"{descriptors} descriptors", flush=True)
        full = [(crowd(run, paths[0])[0], empty(run)[0]) for _ in range(3)]
        print(f"4,096 modules, KB resident with them and without them, three times: {full}",
              flush=True)
        run.end()
    except Differs as differs:
        raise SystemExit(f"{differs}\nlong run: differs after {run.count} commands") from differs
    first, last = states[0], states[-1]
    expect("descriptors at the end, beside those after the first part", last[2], first[2])
    expect("memory at the end is within 10 % and 512 KB of that after the first part",
           last[0] <= first[0] * 1.1 + 512, True)
    # the first modules fill gaps of earlier ones, so the second may get other addresses
    expect("memory of the third 4,096 modules is that of the second",
           full[2][0] <= full[1][0] * 1.02, True)
    print(f"{run.count} commands in {time.monotonic() - start:.0f} s, no reply differs", flush=True)
    return run.count


def run_with(program, lines, stdout=subprocess.PIPE, words=()):
    text = b"".join(line + b"\n" for line in lines)
    done = subprocess.run([program, *words], input=text, stdout=stdout, stderr=subprocess.PIPE,
                          timeout=300, check=False)
    return done.returncode, done.stdout, done.stderr


def outputs(program, sample):
    """Checks full and closed outputs."""
    load = [b"load a 0 " + sample, b"1004"]
    failed = b"addr2line_live: writing failed\n"
    with open("/dev/full", "wb") as full:
        expect("a full output", run_with(program, load, full), (1, None, failed))
        expect("a full output of help", run_with(program, [], full, ["--help"]), (1, None, failed))
    reading, writing = os.pipe()
    os.close(reading)
    expect("an output whose reader is gone", run_with(program, load, writing), (1, None, failed))
    os.close(writing)
    answered = (0, LOADED + b"/src/a.c:11\n", b"")
    for closed, wanted in ((">&-", (1, b"", failed)), ("2>&-", answered)):
        command = ["sh", "-c", f'"$0" {closed}', program]
        done = subprocess.run(command, input=b"\n".join(load), capture_output=True, check=False)
        expect(f"an output that was never open ({closed})",
               (done.returncode, done.stdout, done.stderr), wanted)
    inputs(program, os.path.dirname(sample))


def inputs(program, path):
    """Checks an input that was never open, and a folder as input."""
    failed = (1, b"addr2line_live: reading failed\n")
    done = subprocess.run(["sh", "-c", '"$0" <&-', program], capture_output=True, check=False)
    expect("an input that was never open", (done.returncode, done.stderr), failed)
    folder = os.open(path, os.O_RDONLY)
    done = subprocess.run([program], stdin=folder, capture_output=True, check=False)
    expect("a folder as input", (done.returncode, done.stderr), failed)
    os.close(folder)


def sparse(path, sample, size):
    """Writes a sparse file that begins with the sample, and returns its `load` line."""
    path.write_bytes(sample)
    os.truncate(path, size)
    return b"load a 0 " + bytes(path)


def files(program, folder, sample):
    """Checks special files, files at the limit, and files that shrink while they are read."""
    def reply(line):
        return run_with(program, [line])[1]
    expect("a folder", reply(b"load a 0 " + bytes(folder)), b"refused file\n")
    expect("a device without a byte", reply(b"load a 0 /dev/null"),
           b"refused object elf not-elf at 0\n")
    expect("a device without end", reply(b"load a 0 /dev/zero"), b"refused too-large\n")
    expect("a path through a file", reply(b"load a 0 " + bytes(folder / "o0" / "x")),
           b"refused file\n")
    expect("a path that is too long for the system", reply(b"load a 0 " + b"x" * 4000),
           b"refused file\n")
    pipe = folder / "pipe"
    os.mkfifo(pipe)
    writer = threading.Thread(target=pipe.write_bytes, args=(sample,))
    writer.start()
    expect("a pipe that gives an object", reply(b"load a 0 " + bytes(pipe)), LOADED)
    writer.join()
    large = folder / "large"
    expect("a file of 1 GiB", reply(sparse(large, sample, LIMIT)), LOADED)
    expect("a file of 1 GiB and a byte", reply(sparse(large, sample, LIMIT + 1)),
           b"refused too-large\n")
    for size in (1 << 20, 300, 0):
        shrinking(program, large, sample, size)
    large.unlink()


def shrinking(program, path, sample, size):
    """Checks a file of 1 GiB that is truncated while it is read. The bytes that were read are
    accepted or refused, and the process continues."""
    line = sparse(path, sample, LIMIT)
    process = subprocess.Popen([program], stdin=subprocess.PIPE, stdout=subprocess.PIPE)
    process.stdin.write(line + b"\nload b 10000 " + bytes(path.parent / "o0") + b"\n11004\n")
    process.stdin.close()
    while state(process)[0] < 100_000 and process.poll() is None:
        time.sleep(0.001)
    os.truncate(path, size)
    found = process.stdout.read()
    after = b"loaded b 0x0000000000011000-0x0000000000012000\n/src/a.c:11\n"
    expect(f"a file of 1 GiB that is cut to {size} bytes while it is read", found, LOADED + after)
    expect("the status after it", process.wait(), 0)


def main():
    program, commands = os.path.abspath(sys.argv[1]), int(sys.argv[2])
    print(f"long run: {commands} commands to one process, and outputs and files that are not as "
          "wanted", flush=True)
    with tempfile.TemporaryDirectory() as folder:
        count = stay_up(program, commands, Path(folder), sys.argv[3:])
        outputs(program, bytes(Path(folder) / "o0"))
        files(program, Path(folder), SAMPLE.read_bytes())
    print(f"long run: {count} commands and all outputs and files tried, {len(failures)} differ: "
          f"{', '.join(failures) or 'none'}")
    sys.exit(bool(failures))


if __name__ == "__main__":
    main()
