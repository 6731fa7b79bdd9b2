"""Races a program with the oracle on whole inputs: race.py PROGRAM RUNS

Both get the same bytes through a pipe, and have to print the same. The inputs are left in target/bench/inputs.
Prints a table in Markdown, and the stack that the program needs. bench/program.sh builds both and calls this.
"""
import pathlib
import resource
import statistics
import subprocess
import sys
import threading
import time

ROOT = pathlib.Path(__file__).resolve().parent.parent
ORACLE = ROOT / 'oracle/target/release/oracle'
INPUTS = ROOT / 'target/bench/inputs'
SAMPLE = ROOT / 'crates/sample'
STEP = 20
CAPACITY = 13
STACK_STEP = 4
STACK_ENOUGH = 8192
STACK_RUNS = 100


def line(*words):
    """A command: a letter and numbers."""
    return (' '.join(map(str, words)) + '\n').encode()


class Plan:
    """A staircase of jobs, each overlapping the next, and three jobs more that need not run anywhere: one that
    fits only beside the last stair, a short one and a long one, which fit anywhere."""

    def __init__(self, jobs):
        self.stairs = jobs - 3
        self.asked, self.short, self.long, self.unknown = range(self.stairs, jobs + 1)
        staircase = [line('J', stair * STEP, stair * STEP, 30, 6) for stair in range(self.stairs)]
        others = [line('J', 0, 100_000, duration, usage) for duration, usage in [(30, 2), (4, 1), (200, 1)]]
        self.load = staircase + others + [line('L', CAPACITY)]

    def put_short(self, stair, at=11):
        """The short job within the stretch that a stair covers alone. What it cuts stays cut."""
        return line('U', self.short, stair * STEP + at, stair * STEP + at)

    def put_long(self, stair):
        """The long job from the start of a stair to the start of the tenth behind it."""
        return line('U', self.long, stair * STEP, stair * STEP)


def times(count, lines):
    """So many lines, these again and again."""
    return (lines * (count // len(lines) + 1))[:count]


def rows(lines):
    """How many rows the table has after these lines, in words."""
    answers = printed([ORACLE], b''.join([*lines, line('T')]))
    return answers.split()[-1].decode() + ' rows'


def inputs():
    """Each input: the name of its file, what it is, its lines, and the oracle's switches."""
    million = 1_000_000

    plan = Plan(20)
    places = [plan.put_short(0), plan.put_short(plan.stairs // 2)]
    table = plan.load + places
    size = f'20 jobs, {rows(table)}'
    yield 'moves', f'a million `U` that move a part back and forth; {size}', table + times(million, places), []
    yield 'fits', f'a million `P`; {size}', table + times(million, [line('P', plan.asked)]), []
    yield 'empty', f'a million empty lines; {size}', table + times(million, [b'\n']), []
    unknown = [line('U', plan.unknown, 5, 5)]
    yield 'unknown', f'a million `U` of an unknown id; {size}', table + times(million, unknown), []

    apart = [line('J', place * 10, place * 10 + 2, 9, 1 + place % 3) for place in range(20)] + [line('L', 1000)]
    turns = [line('U', turn % 20, turn * 7 % 300, turn * 7 % 300 + 3) for turn in range(300)]
    moved = f'a million `U`, each of another task, mostly from gap to gap; 20 jobs, {rows(apart)}'
    yield 'gaps', moved, apart + times(million, turns), []

    plan = Plan(32)
    places = [plan.put_short(stair * 7 % plan.stairs) for stair in range(plan.stairs)]
    table = plan.load + places
    size = f'32 jobs, {rows(table)}'
    yield 'many-moves', f'a million `U` that move a part all over; {size}', table + times(million, places), []
    yield 'many-fits', f'a million `P`; {size}', table + times(million, [line('P', plan.asked)]), []
    long_places = [plan.put_long(1), plan.put_long(plan.stairs // 2)]
    yield 'long-moves', f'200,000 `U` that move a part of 40 rows; {size}', table + times(200_000, long_places), []

    table += [plan.put_short(stair, 15) for stair in range(13)]
    yield 'tables', f'20,000 `T`; 32 jobs, {rows(table)}', table + times(20_000, [line('T')]), []
    yield 'line-feeds', '10 MB of line feeds', [b'\n' * 10_000_000], []
    generate = [ORACLE, 'generate', '1', '10000']
    yield 'plain-sessions', '10,000 sessions of the shape `plain`', [printed([*generate, 'plain'])], []
    yield 'sessions', '10,000 sessions of all shapes, Rust `--repaired`', [printed(generate)], ['--repaired']


def printed(program, data=b''):
    """What a program prints for these bytes."""
    return subprocess.run(program, input=data, stdout=subprocess.PIPE, check=True).stdout


def seconds(program, data):
    """How long a run takes, with a pipe before it and one behind it."""
    began = time.monotonic()
    process = subprocess.Popen(program, stdin=subprocess.PIPE, stdout=subprocess.PIPE, bufsize=0)

    def feed():
        process.stdin.write(data)
        process.stdin.close()
    feeder = threading.Thread(target=feed)
    feeder.start()
    while process.stdout.read(65536):
        pass
    feeder.join()
    process.wait()
    return time.monotonic() - began


def race(ours, rust, data, runs):
    """A line of the table without its start, the two taking turns."""
    turns = [(seconds(ours, data), seconds(rust, data)) for _ in range(runs)]
    our_time, rust_time = [statistics.median(side) for side in zip(*turns)]
    ratios = [first / second for first, second in turns]
    spread = f'{min(ratios):.2f} to {max(ratios):.2f}'
    return f'{our_time:.3f} | {rust_time:.3f} | {our_time / rust_time:.2f} | {spread} |'


def answers_sample(program, stack):
    """Whether the program answers the sample with a stack of so many KB, every time: where in the first 8 KB of
    the stack a program begins is random."""
    def limit():
        resource.setrlimit(resource.RLIMIT_STACK, (stack << 10, stack << 10))
    for _ in range(STACK_RUNS):
        with open(SAMPLE / 'stdin', 'rb') as given:
            run = subprocess.run([program], stdin=given, stdout=subprocess.PIPE, env={}, preexec_fn=limit)
        if run.returncode != 0 or run.stdout != (SAMPLE / 'stdout').read_bytes():
            return False
    return True


def least_stack(program):
    """The least stack in KB with which the program answers the sample, by halving."""
    short, enough = 0, STACK_ENOUGH
    while enough - short > STACK_STEP:
        middle = (short + enough) // 2
        if answers_sample(program, middle):
            enough = middle
        else:
            short = middle
    return enough


def main(program, runs):
    """Races on all inputs."""
    INPUTS.mkdir(parents=True, exist_ok=True)
    print('| input | ours, s | Rust, s | ratio | ratios of the turns |\n|---|---|---|---|---|')
    for name, about, lines, switches in inputs():
        data = b''.join(lines)
        path = INPUTS / f'{name}.txt'
        path.write_bytes(data)
        rust = [ORACLE, *switches]
        if printed([program], data) != printed(rust, data):
            sys.exit(f'race: the two print different answers to {path}')
        print(f'| {about} | {race([program], rust, data, runs)}', flush=True)
    stack = least_stack(program)
    print(f'\nThe program answers the sample with a stack of {stack} KB, and not with {stack - STACK_STEP}.')


if __name__ == '__main__':
    main(sys.argv[1], int(sys.argv[2])) if len(sys.argv) == 3 else sys.exit(__doc__)
