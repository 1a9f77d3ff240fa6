#!/usr/bin/env python3
"""Asks `symq serve` of damaged files, and compares each answer with that of a second reading. Prints how many cases differ, and
keeps their files. As root, since texts of processes lie in a /proc of its own:

    docs/damage.py crates/symq/out/symq [--cases N] [--seed N] [--original PROGRAM]

With `--original` Blazesym's own readers are asked too. `PROGRAM [FLAG] cases KIND FILE` reads the length of a file in four bytes,
the file, how many addresses there are in four, and each in eight. It writes a text's length and the text. Where that answers
otherwise, a rule of DIFFERENCES.md has to tell so.
"""
import argparse
import collections
import os
import random
import re
import resource
import shutil
import struct
import subprocess
import sys

sys.dont_write_bytecode = True
from damaged_files import Maker  # noqa: E402
from second_reading import answers, met  # noqa: E402

# Each format with its kind, its share of the cases, and the file that is damaged.
FORMATS = {
    'breakpad': ('breakpad', 8, 'file'),
    'gsym': ('gsym', 6, 'file'),
    'elf': ('elf', 3, 'file'),
    'maps': ('process', 1, 'maps'),
    'perf map': ('process', 1, 'root/tmp/perf-'),
    'status': ('process', 1, 'status'),
}
FLAGS = [[], [], [], ['--no-inlined'], ['--no-code-info'], ['--no-reload']]

# A folder with files, of which one is damaged: its format and kind, what a request names, the bytes that are read first, addresses.
Case = collections.namedtuple('Case', 'format kind target folder data addrs')


def make_cases(chance, first, count):
    """Makes the files of one format, and writes them with other damage into each of so many folders, from the first number on."""
    format = chance.choices(list(FORMATS), [share for _, share, _ in FORMATS.values()])[0]
    kind, _, damaged = FORMATS[format]
    maker = Maker(chance)
    files = maker.process() if kind == 'process' else {'file': getattr(maker, kind)()}
    damage = maker.damaged_bytes if kind in ('gsym', 'elf') else maker.damaged_text
    for number in range(first, first + count):
        folder = f'/proc/{number}'
        texts = {name: damage(text) if name.startswith(damaged) else text for name, text in files.items()}
        for name, text in texts.items():
            write(f'{folder}/{name.replace("-.", f"-{number}.")}', text)
        target, data = (str(number), texts['maps']) if kind == 'process' else (f'{folder}/file', texts['file'])
        yield Case(format, kind, target, folder, data, maker.addrs())


def write(path, data):
    os.makedirs(os.path.dirname(path), exist_ok=True)
    with open(path, 'wb') as file:
        file.write(data)


def requests(case):
    """A batch of the addresses, and two of them alone."""
    batch = ' '.join([case.kind, case.target, *(f'{addr:x}' for addr in case.addrs)])
    return '\n'.join([batch, *(f'single {case.kind} {case.target} {addr:x}' for addr in case.addrs[:2]), ''])


def by_second_reading(case, flags):
    """The text of the batch, and that of the addresses alone."""
    path = case.folder if case.kind == 'process' else case.target
    batch, texts = answers(case.kind, case.data, path, flags, case.addrs)
    return batch, b''.join(texts[:2])


def limit_time():
    """A run that takes longer than a minute of a processor is stopped, so a hang is told as a failure."""
    resource.setrlimit(resource.RLIMIT_CPU, (60, 60))


def by_program(program, flags, cases):
    """What `symq serve` writes, and how it failed if it did."""
    text = ''.join(map(requests, cases)).encode()
    run = subprocess.run([program, *flags, 'serve'], input=text, capture_output=True, preexec_fn=limit_time)
    return run.stdout if run.returncode == 0 else run.stdout + b'status %d\n' % run.returncode + run.stderr


class Original:
    """Blazesym's own readers: one run of their program for each kind and its flags."""

    def __init__(self, program):
        self.program, self.runs = program, {}

    def batch(self, case, flags):
        words = (self.program, *flags, 'cases', case.kind, '/proc/original')
        if words not in self.runs:
            pipe, null = subprocess.PIPE, subprocess.DEVNULL
            self.runs[words] = subprocess.Popen(words, stdin=pipe, stdout=pipe, stderr=null)
        run, count = self.runs[words], len(case.addrs)
        try:
            run.stdin.write(struct.pack('<I', len(case.data)) + case.data + struct.pack(f'<I{count}Q', count, *case.addrs))
            run.stdin.flush()
            (length,) = struct.unpack('<I', run.stdout.read(4))
            return run.stdout.read(length)
        except (BrokenPipeError, struct.error):
            del self.runs[words]
            return b'it failed\n'

    def rules(self, case, flags, ours):
        """Which rules tell its answers from ours, address by address."""
        if case.kind == 'breakpad' and b'PUBLIC' in case.data:
            case = without_publics(case)
            ours, _ = by_second_reading(case, flags)
        if self.batch(case, flags) == ours:
            return set()
        rules = set()
        for addr in case.addrs:
            alone = case._replace(addrs=[addr])
            met.clear()
            (ours, _), theirs = by_second_reading(alone, flags), self.batch(alone, flags)
            if ours != theirs:
                rules |= met or {module_rule(alone, flags, theirs) or f'no rule: {ours} {theirs}'}
        return rules


def without_publics(case):
    """The original drops PUBLIC records: an INFO record stands in place of each."""
    return case._replace(data=re.sub(rb'(?m)^([ \t\r]*)PUBLIC[ \t][^\n]*', rb'\1INFO -', case.data))


def module_rule(case, flags, theirs):
    """Fields of the original's MODULE record may hold line ends: but for the module it answers like the text behind some end."""
    ends = [match.end() for match in re.finditer(b'\n', case.data)][:8] if case.data.startswith(b'MODULE') else []
    rests = [case._replace(data=b'INFO -\n' + case.data[end:]) for end in ends]
    is_told = any(without_module(by_second_reading(rest, flags)[0]) == without_module(theirs) for rest in rests)
    return 'line ends in a MODULE record' if is_told else None


def without_module(text):
    return re.sub(rb'(?m)^(0x.*? size \S+ module ).*?( at )', rb'\1-\2', text)


class Run:
    """What is counted: cases by format and whether they are read, those that differ, and those whose difference a rule tells."""

    def __init__(self, arguments):
        self.arguments = arguments
        self.original = Original(arguments.original) if arguments.original else None
        self.counts, self.rules, self.differing = collections.Counter(), collections.Counter(), 0

    def count(self, case, flags, wanted, given):
        batch, alone = wanted
        self.counts[case.format, 'refused' if batch.startswith(b'refused') else 'read'] += 1
        if given != batch + alone:
            self.differing += 1
            self.keep(case, flags, batch + alone, given)
        if self.original and case.kind in ('breakpad', 'gsym'):
            self.rules.update(self.original.rules(case, [flag for flag in flags if flag != '--no-reload'], batch))

    def keep(self, case, flags, wanted, given):
        folder = f'{self.arguments.keep}/{self.arguments.seed}-{self.differing}'
        shutil.copytree(case.folder, f'{folder}/files')
        for name, text in [('requests', requests(case).encode()), ('wanted', wanted), ('given', given)]:
            write(f'{folder}/{name}', text)
        print(f'{folder}: {case.format}, symq {" ".join([*flags, "serve"])}', flush=True)

    def batch(self, chance, count):
        """Makes and asks so many cases, all by one run of the program, and again one by one where that differs."""
        flags = chance.choice(FLAGS)
        cases = [case for first in range(1, count + 1, 4) for case in make_cases(chance, first, min(4, count + 1 - first))]
        wanted = [by_second_reading(case, flags) for case in cases]
        is_as_wanted = by_program(self.arguments.program, flags, cases) == b''.join(map(b''.join, wanted))
        for case, texts in zip(cases, wanted):
            self.count(case, flags, texts, b''.join(texts) if is_as_wanted else by_program(self.arguments.program, flags, [case]))
            shutil.rmtree(case.folder)

    def cases(self):
        chance, done = random.Random(self.arguments.seed), 0
        while done < self.arguments.cases:
            count = min(1000, self.arguments.cases - done)
            self.batch(chance, count)
            done += count
            print(f'{self.differing} of {done} cases differ', flush=True)
        for (format, how), count in sorted(self.counts.items()):
            print(f'{format}: {count} {how}')
        for rule, count in sorted(self.rules.items()):
            print(f'the original answers otherwise in {count} cases: {rule}')


def cover_proc():
    """Puts an empty folder in place of /proc, for this process and those that it starts. The real /proc/self stays."""
    subprocess.run(['mount', '--bind', '/proc', '/mnt'], check=True)
    subprocess.run(['mount', '-t', 'tmpfs', 'tmpfs', '/proc'], check=True)
    os.symlink('/mnt/self', '/proc/self')


def main():
    parser = argparse.ArgumentParser(description=__doc__, formatter_class=argparse.RawDescriptionHelpFormatter)
    parser.add_argument('program')
    parser.add_argument('--cases', type=int, default=20000)
    parser.add_argument('--seed', type=int, default=1)
    parser.add_argument('--original')
    parser.add_argument('--keep', default='/tmp/damage', help='the folder that keeps cases that differ')
    parser.add_argument('--unshared', action='store_true', help=argparse.SUPPRESS)
    arguments = parser.parse_args()
    if not arguments.unshared:
        os.execvp('unshare', ['unshare', '--mount', sys.executable, *sys.argv, '--unshared'])
    cover_proc()
    run = Run(arguments)
    run.cases()
    return 1 if run.differing else 0


if __name__ == '__main__':
    sys.exit(main())
