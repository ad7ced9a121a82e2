"""Common parts of the benchmarks of crates: the programs to time, and their turns.

The program is bench/saga_timing, which ./build proves and builds on its first use. The peer is
LEMON's preflow (Debian: liblemon-dev), built by g++. Each prints one line, and on standard error
the seconds of each of 101 runs.
"""
import argparse
import os
import pathlib
import statistics
import subprocess
import tempfile

HERE = pathlib.Path(__file__).resolve().parent
CRATE = HERE / "saga_timing"

# With these settings the allocator of the C library keeps the memory that a run frees.
KEPT = {"MALLOC_MMAP_THRESHOLD_": str(2**30), "MALLOC_TRIM_THRESHOLD_": str(2**32)}


def options(summary):
    """Return the options of the command line, which all scripts share."""
    parser = argparse.ArgumentParser(description=summary.strip().splitlines()[0])
    parser.add_argument("--seeds", type=int, default=5, help="the number of inputs of each kind")
    parser.add_argument("--turns", type=int, default=5, help="the number of turns of each program")
    parser.add_argument(
        "--program", type=pathlib.Path, help="the program (default: bench/saga_timing)"
    )
    return parser.parse_args()


def built(arguments):
    """Return the command of the program, which is built if its sources have changed."""
    if not arguments.program:
        subprocess.run([HERE.parent / "build", "saga_timing"], check=True)
    return [arguments.program or CRATE / "out" / "saga_timing"]


def built_peer(folder):
    """Build LEMON's preflow in a folder, and return its path."""
    program = pathlib.Path(folder) / "preflow"
    subprocess.run(["g++", "-O2", "-o", program, HERE / "peers" / "preflow.cpp"], check=True)
    return program


def put(folder, name, text):
    """Write a text to a file, and return its path."""
    path = pathlib.Path(folder) / name
    path.write_text(text, encoding="utf-8")
    return path


def timed(commands, turns, settings=None):
    """Return the output of each command, split at blanks, and the median seconds of its runs.

    The settings are added to the environment.
    """
    environment = os.environ | (settings or {})
    outputs = [None] * len(commands)
    times = [[] for _ in commands]
    for _ in range(turns):
        for number, command in enumerate(commands):
            done = subprocess.run(
                command, env=environment, capture_output=True, text=True, check=True
            )
            outputs[number] = done.stdout.split()
            times[number] += [float(line) for line in done.stderr.split()]
    return [(printed, statistics.median(seconds)) for printed, seconds in zip(outputs, times)]


def best_of_parts(command, parts, turns):
    """Return the output of a command, split at blanks, and the best seconds of each of its parts.

    For each run the command prints the seconds of each part on standard error, in order.
    """
    seconds = [[] for _ in range(parts)]
    for _ in range(turns):
        done = subprocess.run(
            command, env=os.environ | KEPT, capture_output=True, text=True, check=True
        )
        for number, line in enumerate(done.stderr.split()):
            seconds[number % parts].append(float(line))
    return done.stdout.split(), [min(times) for times in seconds]


def events_of(program, arguments, parts, turns):
    """Return the number of events, which the command prints, and the best seconds of each part."""
    printed, best = best_of_parts([*program, *arguments], parts, turns)
    return int(printed[1]), best


def compared(summary, command, kinds):
    """Compare a command of the program with the peer, and return whether all values agree.

    It prints for each input both median times and their ratio, and then the ratios of each kind. A
    kind is a name and a function, which makes the text for the program and the network for the peer
    from a seed.
    """
    arguments = options(summary)
    program = built(arguments)
    agree = True
    with tempfile.TemporaryDirectory() as folder:
        peer = built_peer(folder)
        for kind, made in kinds:
            ratios = []
            for seed in range(1, arguments.seeds + 1):
                text, net = made(seed)
                commands = [
                    [*program, command, put(folder, "text", text)],
                    [peer, put(folder, "net", net)],
                ]
                (ours, our_time), (theirs, their_time) = timed(commands, arguments.turns)
                same = ours[1:2] == theirs[1:2]
                agree = agree and same
                ratios.append(our_time / their_time)
                print(
                    f"{kind} seed {seed}: {' '.join(ours)} {'agrees' if same else 'DIFFERS'},"
                    f" {our_time * 1e6:.0f} us against {their_time * 1e6:.0f} us,"
                    f" ratio {ratios[-1]:.2f}"
                )
            print(
                f"{kind}: median ratio {statistics.median(ratios):.2f}, maximum {max(ratios):.2f}",
                flush=True,
            )
    return agree
