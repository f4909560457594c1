#!/usr/bin/env python3
"""Tries ./kelafshir as a new user's first hour does: through links, twice at once, with bad surroundings.

    python3 tests/first_hour.py

Full disks, closed descriptors, readers that go away, slow ends and ends that do not block, a path without the kit. What the script does
around a build is tried on a copy of it with a stand-in for the kit, so that no test waits for a proof. The last line is
'N passed, M failed'.
"""
import contextlib
import os
import pathlib
import pty
import resource
import select
import shutil
import signal
import socket
import struct
import subprocess
import sys
import tempfile
import threading
import time

from cases import cases
from definition import DILATION, EROSION, answer

TOP = pathlib.Path(__file__).resolve().parent.parent
KELAFSHIR = TOP / 'kelafshir'
_, JOB, ANSWER = next(cases())
USAGE, UNBUILT, UNWRITTEN, READER_GONE = 64, 69, 74, 128 + signal.SIGPIPE
# Seconds after which something has gone wrong, on the slowest machine.
PATIENCE = 120

TESTS = []


def test(try_it):
    """A test gives nothing where all is well, and raises AssertionError with what was seen where not."""
    TESTS.append(try_it)
    return try_it


def expect(is_so, *seen):
    if not is_so:
        raise AssertionError(' '.join(map(repr, seen)))


def run(given=JOB, words=(), program=KELAFSHIR, **how):
    """Runs the script on bytes or on an open file: its status, and what it wrote and said."""
    source = {'input': given} if isinstance(given, bytes) else {'stdin': given}
    how = {'stdout': subprocess.PIPE, 'stderr': subprocess.PIPE, 'timeout': PATIENCE, **source, **how}
    ended = subprocess.run([str(program), *words], **how)
    return ended.returncode, ended.stdout, (ended.stderr or b'').decode()


def expect_answer(ran, expected=ANSWER):
    expect(ran == (0, expected, ''), ran)


def expect_failure(ran, status, *words):
    """The status, nothing written, and every word said."""
    expect(ran[0] == status and not ran[1] and all(word in ran[2] for word in words), ran)


def tall_job():
    """A job whose answer is longer than a pipe holds."""
    rows = [bytes((x * 7 + y * 13 + x * y) % 251 for x in range(60)) for y in range(2500)]
    plan = bytes([2, EROSION, 2, 1, 1, 0, DILATION, 1, 2, 0, 2])
    return plan + struct.pack('<BHH', 0, 60, 2500) + b''.join(rows)


TALL = tall_job()
TALL_ANSWER = answer(TALL)


# ---- where it is started from

@contextlib.contextmanager
def folder():
    with tempfile.TemporaryDirectory() as name:
        yield pathlib.Path(name)


@test
def a_link_to_the_script_works():
    with folder() as here:
        (here / 'direct').symlink_to(KELAFSHIR)
        (here / 'again').symlink_to('direct')
        expect_answer(run(program=here / 'direct', cwd=here))
        expect_answer(run(program='./again', cwd=here))
        expect_answer(run(program='again', cwd='/', env={**os.environ, 'PATH': '%s:%s' % (here, os.environ['PATH'])}))


def path_without_rt():
    return ':'.join(part for part in os.environ['PATH'].split(':') if not os.access(os.path.join(part, 'rt'), os.X_OK))


@test
def without_the_kit_it_says_so():
    bare = {name: value for name, value in os.environ.items() if name != 'RATTLE_HOME'}
    with folder() as here:
        expect_failure(run(env={**bare, 'PATH': path_without_rt()}, cwd=here), UNBUILT, 'rt is not on the path')
        expect_failure(run(env={**bare, 'RATTLE_HOME': str(here)}), UNBUILT, 'there is no kit at', str(here))


@test
def the_kit_is_found_by_its_folder_alone():
    guide = subprocess.run(['rt', 'doc'], stdout=subprocess.PIPE, check=True).stdout.decode().strip()
    kit = pathlib.Path(guide).parent
    expect_answer(run(env={**os.environ, 'PATH': path_without_rt(), 'RATTLE_HOME': str(kit)}))


@test
def help_is_shown():
    for word in '--help', '-h':
        status, out, err = run(words=[word])
        expect(status == 0 and b'kelafshir < job > answer' in out and not err, status, out, err)


@test
def words_that_it_does_not_know_are_refused():
    for words in ['job'], ['--help', 'more'], ['']:
        expect_failure(run(words=words), USAGE, 'kelafshir < job > answer')


@test
def a_terminal_is_no_job():
    ours, theirs = pty.openpty()
    with os.fdopen(theirs, 'rb', buffering=0) as terminal:
        expect_failure(run(terminal), USAGE, 'terminal')
    os.close(ours)


# ---- the job cannot be read

@test
def a_closed_input_gets_no_number():
    expect_failure(run(None, preexec_fn=lambda: os.close(0)), UNWRITTEN, 'standard input is closed')


@test
def a_folder_is_no_input():
    descriptor = os.open('/', os.O_RDONLY)
    expect_failure(run(descriptor), UNWRITTEN, 'reading the job', 'directory')
    os.close(descriptor)


@test
def an_input_that_is_only_for_writing_gets_no_number():
    with open(os.devnull, 'wb') as output:
        expect_failure(run(output), UNWRITTEN, 'reading the job', 'Bad file descriptor')


@test
def an_input_that_breaks_in_the_middle_of_a_row_gets_no_number():
    with socket.create_server(('127.0.0.1', 0)) as server, socket.create_connection(server.getsockname()) as given:
        feeding, _ = server.accept()
        process = subprocess.Popen([KELAFSHIR], stdin=given.fileno(), stdout=subprocess.PIPE, stderr=subprocess.PIPE)
        cut = 11 + 5 + 60 * 3 + 30
        feeding.sendall(TALL[:cut])
        due = answer(TALL[:cut])[:-2]
        got = process.stdout.read(len(due))
        # Closed so, the connection is reset, which a read tells as a failure.
        feeding.setsockopt(socket.SOL_SOCKET, socket.SO_LINGER, struct.pack('ii', 1, 0))
        feeding.close()
        out, err = process.communicate(timeout=PATIENCE)
    expect(len(due) > 6 and got == due and not out, due, got, out)
    expect(process.returncode == UNWRITTEN and 'reading the job: Connection reset' in err.decode(), process.returncode, err)


@test
def a_job_that_ends_early_still_gets_13():
    expect_answer(run(JOB[:-1]), answer(JOB[:-1]))
    expect(answer(JOB[:-1])[-1] == 13, answer(JOB[:-1]))


@test
def an_empty_input_still_gets_13():
    expect_answer(run(b''), bytes([0, 13]))


# ---- the answer cannot be written

@test
def a_full_disk_is_told():
    for given in JOB, b'', TALL:
        with open('/dev/full', 'wb') as full:
            status, _, err = run(given, stdout=full)
        expect(status == UNWRITTEN and 'writing the answer' in err and 'No space left' in err, status, err)


@test
def a_closed_output_is_told():
    status, _, err = run(stdout=None, preexec_fn=lambda: os.close(1))
    expect(status == UNWRITTEN and 'standard output is closed' in err, status, err)


@test
def nothing_is_open_at_all():
    expect(run(None, stdout=None, preexec_fn=lambda: [os.close(each) for each in range(3)])[0] == UNWRITTEN)


@test
def the_status_tells_where_nothing_can_be_said():
    with open('/dev/full', 'wb') as full:
        for unheard in {'preexec_fn': lambda: os.close(2)}, {'stderr': full}:
            expect(run(stdout=full, **unheard)[0] == UNWRITTEN)
            expect(run(words=['job'], **unheard)[0] == USAGE)
            expect(run(**unheard)[:2] == (0, ANSWER))
            with folder() as here:
                expect(Stand(here).run(**unheard)[:2] == (0, b'a job'))
                expect(Stand(here / 'other', is_proved=False).run(**unheard)[:2] == (UNBUILT, b''))


@test
def what_the_loader_says_is_no_failed_write():
    status, out, err = run(env={**os.environ, 'LD_PRELOAD': '/is-not-there.so'})
    expect((status, out) == (0, ANSWER) and 'is-not-there' in err, status, out, err)


def with_limit(is_ignored):
    """At most 1,024 bytes a file; the signal that says so is ignored or not."""
    def limit():
        signal.signal(signal.SIGXFSZ, signal.SIG_IGN if is_ignored else signal.SIG_DFL)
        resource.setrlimit(resource.RLIMIT_FSIZE, (1024, 1024))
    return limit


@test
def a_file_limit_is_told():
    for is_ignored, due, word in (True, UNWRITTEN, 'File too large'), (False, 128 + signal.SIGXFSZ, 'signal 25'):
        with tempfile.TemporaryFile() as file:
            status, _, err = run(TALL, stdout=file, preexec_fn=with_limit(is_ignored), restore_signals=False)
            file.seek(0)
            written = file.read()
        expect(status == due and word in err and written == TALL_ANSWER[:1024], status, err, len(written))


# Whether the signal of a reader that has gone is ignored, the status, and what is said.
GONE = (True, UNWRITTEN, 'kelafshir: writing the answer: Broken pipe\n'), (False, READER_GONE, '')


@test
def a_reader_that_has_gone_is_told():
    for is_ignored, due, said in GONE:
        reader, writer = os.pipe()
        os.close(reader)
        status, _, err = run(stdout=writer, restore_signals=not is_ignored)
        os.close(writer)
        expect((status, err) == (due, said), is_ignored, status, err)


@test
def a_reader_that_goes_away_is_told():
    for is_ignored, due, said in GONE:
        process = subprocess.Popen([KELAFSHIR], stdin=subprocess.PIPE, stdout=subprocess.PIPE, stderr=subprocess.PIPE,
                                   restore_signals=not is_ignored)
        feeder = threading.Thread(target=feed, args=(process.stdin, [TALL]))
        feeder.start()
        begun = process.stdout.read(1000)
        process.stdout.close()
        err = process.stderr.read().decode()
        feeder.join()
        expect((process.wait(), err) == (due, said) and TALL_ANSWER.startswith(begun), is_ignored, process.returncode, err)


# ---- slow ends, and ends that do not block

def feed(sink, pieces, pause=0.0):
    """Gives the pieces with a pause before each; a reader that has gone is no error here."""
    with contextlib.suppress(BrokenPipeError):
        for piece in pieces:
            time.sleep(pause)
            sink.write(piece)
            sink.flush()
    with contextlib.suppress(BrokenPipeError):
        sink.close()


def drink(source, pause):
    """All bytes of the source, a few thousand at a time with a pause before each."""
    got, last = b'', time.monotonic() + PATIENCE
    while select.select([source], [], [], max(0, last - time.monotonic()))[0]:
        time.sleep(pause)
        piece = os.read(source, 5000)
        if not piece:
            return got
        got += piece
    raise AssertionError('the answer does not end: %d bytes came' % len(got))


def between(given_ends, taken_ends, pieces, pause_in, pause_out):
    """Runs the script between two pairs of ends, (ours, its own), fed and drained by pieces: its status, the answer, and what it said."""
    (feeding, given), (taken, draining) = given_ends, taken_ends
    process = subprocess.Popen([KELAFSHIR], stdin=given, stdout=draining, stderr=subprocess.PIPE)
    os.close(given)
    os.close(draining)
    feeder = threading.Thread(target=feed, args=(os.fdopen(feeding, 'wb'), pieces, pause_in))
    feeder.start()
    try:
        got = drink(taken, pause_out)
    except AssertionError:
        process.kill()
        raise
    finally:
        os.close(taken)
        feeder.join()
    err = process.stderr.read().decode()
    return process.wait(), got, err


def pipes(is_blocking):
    """The two ends of an input and of an output, whose ends on the script's side block or not."""
    (given, feeding), (taken, draining) = os.pipe(), os.pipe()
    os.set_blocking(given, is_blocking)
    os.set_blocking(draining, is_blocking)
    return (feeding, given), (taken, draining)


def sockets():
    """The same with sockets that do not block."""
    (feeding, given), (taken, draining) = socket.socketpair(), socket.socketpair()
    given.setblocking(False)
    draining.setblocking(False)
    return (feeding.detach(), given.detach()), (taken.detach(), draining.detach())


def halves(job):
    return job[:len(job) // 2], job[len(job) // 2:]


@test
def a_job_may_come_byte_by_byte():
    for is_blocking in True, False:
        expect_answer(between(*pipes(is_blocking), [bytes([byte]) for byte in JOB], 0.02, 0))


@test
def an_input_that_does_not_block_is_waited_for():
    for ends in pipes(False), sockets():
        expect_answer(between(*ends, halves(TALL), 0.5, 0), TALL_ANSWER)


@test
def an_output_that_does_not_block_is_waited_for():
    for ends in pipes(False), sockets():
        expect_answer(between(*ends, [TALL], 0, 0.02), TALL_ANSWER)


@test
def a_slow_reader_that_blocks_gets_the_whole_answer():
    expect_answer(between(*pipes(True), [TALL], 0, 0.02), TALL_ANSWER)


@test
def an_end_that_is_waited_for_costs_no_processor():
    given_ends, taken_ends = pipes(False)
    before = resource.getrusage(resource.RUSAGE_CHILDREN)
    ran = between(given_ends, taken_ends, [JOB], 2.0, 0)
    after = resource.getrusage(resource.RUSAGE_CHILDREN)
    spent = after.ru_utime + after.ru_stime - before.ru_utime - before.ru_stime
    expect_answer(ran)
    expect(spent < 1.0, spent)


# ---- two starts at once

@test
def two_starts_while_a_build_is_due_both_answer():
    os.utime(TOP / 'crates' / 'morph' / 'src' / 'lib.rt')
    runs = [subprocess.Popen([KELAFSHIR], stdin=subprocess.PIPE, stdout=subprocess.PIPE, stderr=subprocess.PIPE) for _ in range(2)]
    ended = [each.communicate(JOB, timeout=600) + (each.returncode,) for each in runs]
    expect(all(out == ANSWER and status == 0 and 'NOT PROVED' not in err.decode() for out, err, status in ended), ended)


@test
def the_program_ends_with_the_script():
    process = subprocess.Popen([KELAFSHIR], stdin=subprocess.PIPE, stdout=subprocess.PIPE, stderr=subprocess.DEVNULL)
    process.stdin.write(TALL[:1000])
    process.stdin.flush()
    process.stdout.read(6)
    process.terminate()
    process.wait()
    # Its output ends although its input does not.
    last = time.monotonic() + PATIENCE
    while select.select([process.stdout], [], [], max(0, last - time.monotonic()))[0] and os.read(process.stdout.fileno(), 5000):
        pass
    expect(time.monotonic() < last, 'the program goes on')
    process.stdin.close()
    process.stdout.close()


# ---- around a build: a copy of the script, a stand-in for the kit

class Stand:
    """A checkout of three crates and a kit whose `rt run` takes a while and whose program writes the job as it came."""

    PROVED = 'crate low: modules loaded=0 checked=3\nlogic=proved functions=1', 'a note of the prover'
    LINES = PROVED + (
        'crate middle: modules loaded=0 checked=3\nlogic=proved functions=1', 'crate kelafshir: modules loaded=0 checked=3\nlogic=proved functions=1',
        'rt: running out/kelafshir; to give it other input, run that file yourself')
    FAILED = PROVED + (
        'fn middle::f: no proof: expected answers in ./proofs/f/Answers.antt', 'logic=not-proved', 'rt: the library middle did not build, so nothing above it was checked')

    def __init__(self, here, seconds=0.0, is_proved=True):
        self.top, self.kit, self.count = here / 'a checkout', here / 'kit', here / 'builds'
        for crate in 'low', 'middle', 'kelafshir', 'other':
            (self.top / 'crates' / crate / 'src').mkdir(parents=True)
            (self.top / 'crates' / crate / 'src' / 'lib.rt').write_text('')
        (self.top / 'crates.txt').write_text('# layers\nlow:\nmiddle: low\nother: middle\nkelafshir: middle io\n')
        shutil.copy(KELAFSHIR, self.top)
        self.write('KIT-ID', 'kit 1\n')
        lines = self.LINES if is_proved else self.FAILED
        # The program that is run is the one that was built: what it writes is no job's answer.
        self.write('bin/rt', '#!/bin/sh\necho x >>"%s"\nmkdir -p out\n' % self.count +
                   ''.join("echo '%s' >&2\nsleep %f\n" % (line, seconds / len(lines)) for line in lines) +
                   "printf '#!/bin/sh\\nexec cat\\n' >out/kelafshir\nchmod +x out/kelafshir\necho 'an answer to no job'\nexit %d\n" % (not is_proved))

    def write(self, name, text):
        (self.kit / name).parent.mkdir(parents=True, exist_ok=True)
        (self.kit / name).write_text(text)
        (self.kit / name).chmod(0o755)

    def how(self):
        return {'program': self.top / 'kelafshir', 'env': {**os.environ, 'RATTLE_HOME': str(self.kit)}}

    def builds(self):
        return len(self.count.read_text().split()) if self.count.exists() else 0

    def run(self, **how):
        return run(b'a job', **{**self.how(), **how})

    def start(self, stderr=subprocess.PIPE, **more):
        how = self.how()
        return subprocess.Popen([how['program']], env=how['env'], stdin=subprocess.PIPE, stdout=subprocess.PIPE, stderr=stderr, **more)

    def wait_for_a_build(self):
        """Until the first build has begun."""
        last = time.monotonic() + PATIENCE
        while self.builds() == 0:
            expect(time.monotonic() < last, 'no build begins')
            time.sleep(0.02)


@test
def the_first_start_builds_and_later_ones_do_not():
    with folder() as here:
        stand = Stand(here)
        status, out, err = stand.run()
        expect((status, out) == (0, b'a job') and '3 crates' in err and 'note of the prover' not in err, status, out, err)
        expect('a note of the prover' in (stand.top / 'target' / 'run' / 'log').read_text())
        expect(stand.run() == (0, b'a job', '') and stand.builds() == 1, stand.builds())


@test
def a_change_is_built():
    with folder() as here:
        stand = Stand(here)
        stand.run()
        for due, change in enumerate((
                lambda: (stand.top / 'crates' / 'low' / 'src' / 'lib.rt').write_text('fn f() {}'),
                lambda: (stand.top / 'crates' / 'other' / 'src' / 'lib.rt').unlink(),
                lambda: (stand.top / 'crates.txt').write_text('kelafshir:\n'),
                lambda: stand.write('KIT-ID', 'kit 2\n')), 2):
            time.sleep(0.05)
            change()
            expect(stand.run()[:2] == (0, b'a job') and stand.builds() == due, due, stand.builds())
            expect(stand.run() == (0, b'a job', '') and stand.builds() == due, due, stand.builds())


@test
def what_the_kit_writes_is_no_change():
    with folder() as here:
        stand = Stand(here)
        stand.run()
        time.sleep(0.05)
        for crate in 'low', 'other', 'kelafshir':
            out = stand.top / 'crates' / crate / 'out' / 'kept'
            out.mkdir(parents=True)
            (out / 'made.rt').write_text('')
        expect(stand.run() == (0, b'a job', '') and stand.builds() == 1, stand.builds())


@test
def a_change_during_a_build_is_built_too():
    with folder() as here:
        stand = Stand(here, seconds=1)
        first = stand.start()
        stand.wait_for_a_build()
        (stand.top / 'crates' / 'low' / 'src' / 'lib.rt').write_text('fn f() {}')
        first.communicate(b'a job', timeout=PATIENCE)
        expect(stand.run()[:2] == (0, b'a job') and stand.builds() == 2, stand.builds())


@test
def of_starts_at_once_one_builds():
    with folder() as here:
        stand = Stand(here, seconds=5)
        starts = [stand.start()]
        stand.wait_for_a_build()
        starts += [stand.start() for _ in range(3)]
        ended = [each.communicate(b'a job', timeout=PATIENCE) + (each.returncode,) for each in starts]
        expect(all((out, status) == (b'a job', 0) for out, _, status in ended) and stand.builds() == 1, ended, stand.builds())
        expect(sum(b'waiting' in err for _, err, _ in ended) == 3, ended)


@test
def a_build_that_was_ended_leaves_no_lock():
    with folder() as here:
        stand = Stand(here, seconds=2)
        first = stand.start(start_new_session=True)
        stand.wait_for_a_build()
        os.killpg(first.pid, signal.SIGKILL)
        first.communicate()
        expect(stand.run()[:2] == (0, b'a job') and stand.builds() == 2, stand.builds())


@test
def a_build_that_fails_is_told():
    with folder() as here:
        stand = Stand(here, is_proved=False)
        for _ in range(2):
            expect_failure(stand.run(), UNBUILT, 'no proof', 'did not build', 'not built', 'target/run/log')


@test
def a_build_alone_reads_no_job():
    with folder() as here:
        stand = Stand(here)
        expect(stand.run(words=['--build'])[:2] == (0, b'') and stand.builds() == 1, stand.builds())
        expect(stand.run() == (0, b'a job', '') and stand.builds() == 1, stand.builds())


@test
def a_terminal_shows_how_far_the_build_is():
    with folder() as here:
        stand = Stand(here, seconds=5)
        ours, theirs = pty.openpty()
        process = stand.start(stderr=theirs)
        os.close(theirs)
        shown = ''
        while '1 of 3 crates' not in shown and select.select([ours], [], [], PATIENCE)[0]:
            shown += os.read(ours, 1000).decode()
        expect(process.poll() is None and '2 of 3' not in shown, shown)
        out, _ = process.communicate(b'a job', timeout=PATIENCE)
        with contextlib.suppress(OSError):      # the other side of the terminal has gone
            while True:
                shown += os.read(ours, 1000).decode()
        os.close(ours)
        expect(out == b'a job' and '3 of 3 crates' in shown and 'note of the prover' not in shown, out, shown)


def main():
    built = subprocess.run([KELAFSHIR, '--build'], stdin=subprocess.DEVNULL)
    if built.returncode:
        return built.returncode
    failed = 0
    for try_it in TESTS:
        try:
            try_it()
        except (AssertionError, subprocess.TimeoutExpired) as wrong:
            failed += 1
            print('FAILED', try_it.__name__.replace('_', ' '), '\n  ', wrong)
    print('%d passed, %d failed' % (len(TESTS) - failed, failed))
    return 1 if failed else 0


if __name__ == '__main__':
    sys.exit(main())
