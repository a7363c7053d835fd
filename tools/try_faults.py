#!/usr/bin/env python3
"""Runs the log program where reading or printing fails. A file of which a read fails counts as empty; after a failed write nothing
more is printed, so that what was printed is the front of the right text; what is only interrupted or short is done to its end.

    try_faults.py [PROGRAM]     else crates/log_program/out/log_program

Devices, pipes, limits and signals give the faults, and strace those that nothing else gives on purpose.
"""
import os
import resource
import signal
import subprocess
import sys
import tempfile
import threading
import time

sys.dont_write_bytecode = True      # no __pycache__ in the repository
import reference as ref
from text import PROGRAM

MEMBERS = 100
PATIENCE = 120          # seconds for one run
FOLDER = tempfile.TemporaryDirectory()
TRACE = os.path.join(FOLDER.name, 'trace')
SHORT_SCHEME = ref.standard_scheme(4)
SHORT_LOG = ref.build_log(ref.parsed(request) for request, _ in ref.SESSION)
SHORT_TEXT = ''.join(line + '\n' for _, line in ref.SESSION).encode()


class Wrong(Exception):
    """What a run did and should not."""


# ---- A scheme and a log whose text is long: all become friends of 0, and then 1 lists them again and again

def long_case():
    moves = {(0, 0, 0): 1, (0, 1, 0): 1}
    scheme = ref.build_scheme((MEMBERS, 2, 1, 1, 2), moves, {1}, [(0, 0, 0, 0), (1, 0, 0, 0)], [3, 2, 2, 1])
    first = [('set', 0, 0, 1)] + [('event', v, 0, 0) for v in range(1, MEMBERS)]
    lists = (ref.LOG_LIMIT - len(ref.build_log(first))) // 8
    lines = ref.run(scheme, ref.build_log(first + [('list', 1, 0)]))
    answer = lines[-1].partition(' ')[2]
    lines += ['%d %s' % (len(lines) + later, answer) for later in range(1, lists)]
    return scheme, ref.build_log(first + [('list', 1, 0)] * lists), ''.join(line + '\n' for line in lines).encode()


LONG_SCHEME, LONG_LOG, LONG_TEXT = long_case()


# ---- Running

def folder(scheme, log):
    """A new folder with the two files; a text in place of the bytes is what the name points to."""
    place = tempfile.mkdtemp(dir=FOLDER.name)
    for name, content in (('scheme', scheme), ('requests', log)):
        if isinstance(content, str):
            os.symlink(content, os.path.join(place, name))
        else:
            with open(os.path.join(place, name), 'wb') as file:
                file.write(content)
    return place


def short_folder():
    return folder(SHORT_SCHEME, SHORT_LOG)


def long_folder():
    return folder(LONG_SCHEME, LONG_LOG)


def ended(status, allowed=()):
    """A program ends by itself, and by no signal that is not allowed."""
    if status < 0 and -status not in allowed:
        raise Wrong('it was ended by signal %d' % -status)


def printed(place, command, **more):
    result = subprocess.run(command, cwd=place, stdout=subprocess.PIPE, stderr=subprocess.DEVNULL, timeout=PATIENCE, **more)
    ended(result.returncode)
    return result.stdout


def traced(place, program, *words, **more):
    """What is printed where strace makes faults, and the lines of the trace."""
    text = printed(place, ['strace', '-o', TRACE, '-s', '0', '-e', 'quiet=path-resolution', *words, program], **more)
    with open(TRACE) as file:
        return text, [line for line in file if not line.startswith(('+++', '---'))]


def expect(got, wanted):
    if got != wanted:
        raise Wrong('it printed %d bytes, and not the %d that are right' % (len(got), len(wanted)))


def expect_front(got, text):
    if not text.startswith(got):
        raise Wrong('what it printed is not the front of the right text')


def expect_end(trace):
    """Nothing is written to standard output after the first write that failed."""
    failed = [number for number, line in enumerate(trace) if line.startswith('write(1,') and '= -1 ' in line]
    if not failed:
        raise Wrong('no write failed')
    if any(line.startswith('write(1,') for line in trace[failed[0] + 1:]):
        raise Wrong('it goes on writing after a write that failed')


def expect_fault(trace):
    if not any('INJECTED' in line for line in trace):
        raise Wrong('strace made no fault')


# ---- Printing

def without_a_fault(program):
    expect(printed(short_folder(), [program]), SHORT_TEXT)
    expect(printed(long_folder(), [program]), LONG_TEXT)


def full_device(program):
    for place in (short_folder(), long_folder()):
        with open('/dev/full', 'wb') as device:
            result = subprocess.run([program], cwd=place, stdout=device, stderr=subprocess.PIPE, timeout=PATIENCE)
        ended(result.returncode)
        if result.stderr != b'the output is cut: No space left on device (os error 28)\n':
            raise Wrong('standard error does not say that the output is cut')


def full_device_once(program):
    for place in (short_folder(), long_folder()):
        with open('/dev/full', 'wb') as device:
            subprocess.run(['strace', '-o', TRACE, '-e', 'trace=write', program], cwd=place, stdout=device, stderr=subprocess.DEVNULL, timeout=PATIENCE)
        with open(TRACE) as file:
            expect_end(list(file))


def no_output(program):
    for place in (short_folder(), long_folder()):
        status = subprocess.run([program], cwd=place, preexec_fn=lambda: os.close(1), stderr=subprocess.DEVNULL, timeout=PATIENCE).returncode
        ended(status)
    with open(os.path.join(place, 'scheme'), 'rb') as scheme, open(os.path.join(place, 'requests'), 'rb') as log:
        if (scheme.read(), log.read()) != (LONG_SCHEME, LONG_LOG):
            raise Wrong('it changed a file')


def closed_pipe(program, read, ignored):
    """The reader takes so many bytes and closes the pipe; SIGPIPE is ignored or not."""
    with subprocess.Popen([program], cwd=long_folder(), stdout=subprocess.PIPE, stderr=subprocess.DEVNULL, restore_signals=not ignored) as run:
        got = run.stdout.read(read)
        run.stdout.close()
        ended(run.wait(PATIENCE), () if ignored else (signal.SIGPIPE,))
    expect(got, LONG_TEXT[:read])


def limited_file(program, limit):
    """A file may not grow beyond the limit: one write is cut, and the next fails."""
    name = os.path.join(FOLDER.name, 'limited')
    with open(name, 'wb') as file:
        result = subprocess.run([program], cwd=long_folder(), stdout=file, stderr=subprocess.DEVNULL, timeout=PATIENCE, restore_signals=False,
                                preexec_fn=lambda: resource.setrlimit(resource.RLIMIT_FSIZE, (limit, limit)))
    ended(result.returncode)
    with open(name, 'rb') as file:
        expect(file.read(), LONG_TEXT[:limit])


def full_pipe(program):
    """Nobody reads, and the pipe does not wait: it is full at some time."""
    reading, writing = os.pipe()
    os.set_blocking(writing, False)
    with open(reading, 'rb') as pipe:
        try:
            result = subprocess.run([program], cwd=long_folder(), stdout=writing, stderr=subprocess.DEVNULL, timeout=PATIENCE)
        finally:
            os.close(writing)
        ended(result.returncode)
        got = pipe.read()
    expect_front(got, LONG_TEXT)
    if not got or got == LONG_TEXT:
        raise Wrong('the pipe was not full')


def stopped_often(program):
    """Stopped and continued while the pipe is full, a write gives fewer bytes than it was asked for."""
    with subprocess.Popen([program], cwd=long_folder(), stdout=subprocess.PIPE) as run:
        got = b''
        while True:
            time.sleep(0.002)
            run.send_signal(signal.SIGSTOP)
            run.send_signal(signal.SIGCONT)
            piece = os.read(run.stdout.fileno(), 10007)
            if not piece:
                break
            got += piece
        ended(run.wait(PATIENCE))
    expect(got, LONG_TEXT)


def interrupted_writes(program, when):
    got, trace = traced(long_folder(), program, '-e', 'trace=write', '-e', 'inject=write:error=EINTR:when=' + when)
    expect_fault(trace)
    expect(got, LONG_TEXT)


def failed_write(program, number):
    got, trace = traced(long_folder(), program, '-e', 'trace=write', '-e', 'inject=write:error=EIO:when=%d' % number)
    expect_front(got, LONG_TEXT)
    if any('INJECTED' in line for line in trace):
        expect_end(trace)
    else:
        expect(got, LONG_TEXT)


# ---- Reading

def unreadable(program):
    """Reading this file fails at once."""
    expect(printed(folder(SHORT_SCHEME, '/proc/self/mem'), [program]), b'')
    expect(printed(folder('/proc/self/mem', SHORT_LOG), [program]), b'0 1\n')


def endless(program):
    expect(printed(folder(SHORT_SCHEME, '/dev/zero'), [program]), b'0 15\n')
    expect(printed(folder('/dev/zero', SHORT_LOG), [program]), b'0 1\n')


def in_pieces(program):
    """A pipe in place of the log: a read gives what is there."""
    place = long_folder()
    name = os.path.join(place, 'requests')
    os.remove(name)
    os.mkfifo(name)

    def feed():
        with open(name, 'wb', buffering=0) as pipe:
            for at in range(0, len(LONG_LOG), 1009):
                pipe.write(LONG_LOG[at:at + 1009])
                time.sleep(0.002)

    threading.Thread(target=feed, daemon=True).start()
    expect(printed(place, [program]), LONG_TEXT)


FILES = (('scheme', b'0 1\n'), ('requests', b''))


def not_opened(program):
    for name, wanted in FILES:
        for error in ('EACCES', 'EMFILE', 'EIO'):
            got, trace = traced(short_folder(), program, '-P', name, '-e', 'trace=open,openat', '-e', 'inject=open,openat:error=' + error)
            expect_fault(trace)
            expect(got, wanted)


def reads_of(program, name):
    """How many reads of a file there are."""
    trace = traced(long_folder(), program, '-P', name, '-e', 'trace=read')[1]
    return len([line for line in trace if line.startswith('read(')])


def failed_read(program):
    """Each read of each file fails in turn: the first, one in the middle, and the one that would have told the end."""
    for name, wanted in FILES:
        for number in range(1, reads_of(program, name) + 1):
            got, trace = traced(long_folder(), program, '-P', name, '-e', 'trace=read', '-e', 'inject=read:error=EIO:when=%d' % number)
            expect_fault(trace)
            expect(got, wanted)


def interrupted_reads(program):
    for name, _ in FILES:
        for when in [str(number) for number in range(1, reads_of(program, name) + 1)] + ['1+2']:
            got, trace = traced(long_folder(), program, '-P', name, '-e', 'trace=read', '-e', 'inject=read:error=EINTR:when=' + when)
            expect_fault(trace)
            expect(got, LONG_TEXT)


TRIALS = [
    ('no fault', without_a_fault),
    ('output: a full device', full_device),
    ('output: a full device is written to once', full_device_once),
    ('output: closed', no_output),
    ('output: a pipe that nobody reads', lambda program: closed_pipe(program, 0, False)),
    ('output: a pipe that nobody reads, its signal ignored', lambda program: closed_pipe(program, 0, True)),
    ('output: a pipe closed in the middle', lambda program: closed_pipe(program, 100000, False)),
    ('output: a pipe closed in the middle, its signal ignored', lambda program: closed_pipe(program, 100000, True)),
    ('output: a file of at most 1 byte', lambda program: limited_file(program, 1)),
    ('output: a file of at most 100,001 bytes', lambda program: limited_file(program, 100001)),
    ('output: a full pipe that does not wait', full_pipe),
    ('output: a slow pipe, the program stopped and continued', stopped_often),
    ('output: the first write interrupted', lambda program: interrupted_writes(program, '1')),
    ('output: every second write interrupted', lambda program: interrupted_writes(program, '1+2')),
    ('output: the first write fails', lambda program: failed_write(program, 1)),
    ('output: the second write fails', lambda program: failed_write(program, 2)),
    ('output: the third write fails', lambda program: failed_write(program, 3)),
    ('files: not readable', unreadable),
    ('files: without an end', endless),
    ('files: read in pieces', in_pieces),
    ('files: not opened', not_opened),
    ('files: a read fails', failed_read),
    ('files: a read is interrupted', interrupted_reads),
]


def main():
    program = os.path.abspath(sys.argv[1] if len(sys.argv) > 1 else PROGRAM)
    if not os.access(program, os.X_OK):
        sys.exit('there is no program %s' % program)
    wrong = 0
    for title, trial in TRIALS:
        try:
            trial(program)
        except (Wrong, OSError, subprocess.SubprocessError) as error:
            print('%s: %s' % (title, error))
            wrong += 1
    print('%d trials, %d wrong' % (len(TRIALS), wrong))
    sys.exit(wrong > 0)


if __name__ == '__main__':
    main()
