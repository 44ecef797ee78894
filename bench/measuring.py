"""What the scripts here share: the two programs that they measure, and what a run of one costs.

Costs are the processor's time and the peak of memory, the best of three runs. Figures of different machines, or of different calls of a
script, can't be compared; so to compare two programs call a script on both in turn."""
import functools
import os
import subprocess
import sys
import tempfile

BENCH = os.path.dirname(os.path.abspath(__file__))
CRATES = os.path.join(os.path.dirname(BENCH), "crates")
PROGRAM = os.path.join(CRATES, "pm2_load", "out", "pm2_load")
DONE, OUT_OF_TURNS = 0, 4


def once(command, status):
    """Seconds of processor time, KiB at the peak, and the output of a run that ends with this status."""
    with tempfile.TemporaryFile() as output:
        process = subprocess.Popen(command, stdin=subprocess.DEVNULL, stdout=output, stderr=subprocess.DEVNULL)
        _, ended, used = os.wait4(process.pid, 0)
        process.returncode = os.waitstatus_to_exitcode(ended)
        if process.returncode != status:
            sys.exit(f"{' '.join(command)}: ended with {process.returncode}, and not {status}")
        output.seek(0)
        return used.ru_utime + used.ru_stime, used.ru_maxrss, output.read()


def cost(command, status=DONE):
    return min(once(command, status) for _ in range(3))


def pm2(*words, status=DONE, program=PROGRAM):
    """What a run of the program with these words costs."""
    if not os.access(program, os.X_OK):
        sys.exit("the program isn't built: ./pm2 sim examples/01_hello.s builds it")
    return cost([program, *map(str, words)], status)


def pm2_on(source, command, *words, **how):
    """The same of a command on this source."""
    with tempfile.NamedTemporaryFile("w", suffix=".s") as file:
        file.write(source)
        file.flush()
        return pm2(command, file.name, *words, **how)


@functools.cache
def loops():
    """The program of the crate `bench`, proved and built where need be."""
    crate = os.path.join(CRATES, "bench")
    built = subprocess.run(["rt", "run"], cwd=crate, stdout=subprocess.PIPE, stderr=subprocess.STDOUT, text=True)
    if built.returncode:
        sys.exit(f"the crate bench isn't built:\n{built.stdout[-2000:]}")
    return os.path.join(crate, "out", "bench")


def loop(what, kind, count, rounds):
    """What so many rounds of this cost, with what comes before them."""
    return cost([loops(), what, kind, str(count), str(rounds)])


def seconds_a_round(what, kind, count, rounds):
    """The processor's time for a round, without what comes before the first."""
    return (loop(what, kind, count, rounds)[0] - loop(what, kind, count, 0)[0]) / rounds


def row(name, cells, wide=14):
    print(f"{name:<28}" + "".join(f"{cell:>{wide}}" for cell in cells), flush=True)
