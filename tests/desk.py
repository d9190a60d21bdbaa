#!/usr/bin/env python3
"""The frame program under the conditions of its surroundings: desk.py PROGRAM, PROGRAM being crates/desk/out/desk.

Non-blocking pipes and sockets, interrupted calls (strace), pieces of one byte, a slow reader, a terminal, descriptors that are closed
or refuse, limits, and a line of 64 MiB. The input is crates/desk/stdin, its answers crates/desk/stdout. It ends with a line that counts
what passed; the first failure stops it. Needs nothing beyond Python's own library; nothing depends on the clock.
"""
import fcntl
import os
import pty
import resource
import shutil
import signal
import socket
import subprocess
import sys
import tempfile
import threading

PROGRAM = os.path.abspath(sys.argv[1])
DESK = os.path.join(os.path.dirname(os.path.abspath(__file__)), "..", "crates", "desk")
with open(os.path.join(DESK, "stdin"), "rb") as stored:
    GIVEN = stored.read()
with open(os.path.join(DESK, "stdout"), "rb") as stored:
    ANSWERS = stored.read()
REFUSED = b"ff0800000000\n"
INPUT = b"jingcobu-desk: standard input cannot be read: "
OUTPUT = b"jingcobu-desk: standard output does not take the answers: "
SIZE = 4096
passed = 0


def held(name, got, wanted):
    """Ends the run if got is not what was wanted."""
    global passed
    if got != wanted:
        sys.exit("FAILED: %s: %.200r, where %.200r was wanted" % (name, got, wanted))
    passed += 1


def start(stdin, stdout, **more):
    return subprocess.Popen([PROGRAM], stdin=stdin, stdout=stdout, stderr=subprocess.PIPE, **more)


def ended(program):
    """What the program said on standard error, and its exit status."""
    said = program.stderr.read()
    return said, program.wait()


def read_all(fd, size=1 << 16):
    came = []
    while True:
        piece = os.read(fd, size)
        if not piece:
            return b"".join(came)
        came.append(piece)


def write_all(fd, text, size=1 << 16):
    for at in range(0, len(text), size):
        piece = text[at : at + size]
        while piece:
            piece = piece[os.write(fd, piece) :]


def small_pipe():
    """A pipe that holds one page."""
    ends = os.pipe()
    fcntl.fcntl(ends[1], fcntl.F_SETPIPE_SZ, SIZE)
    return ends


def socket_pair():
    """Its first end is the reader's, the second the writer's."""
    ends = socket.socketpair()
    ends[1].setsockopt(socket.SOL_SOCKET, socket.SO_SNDBUF, SIZE)
    return [end.detach() for end in ends]


def talk(name, make, blocking, given, answers, give=1 << 16, take=1 << 16):
    """The program reads and writes by what `make` makes; `give` and `take` are the sizes of what the test writes and reads."""
    (stdin, feed), (fetch, stdout) = make(), make()
    os.set_blocking(stdin, blocking)
    os.set_blocking(stdout, blocking)
    program = start(stdin, stdout)
    os.close(stdin)
    os.close(stdout)

    def feeder():
        try:
            write_all(feed, given, give)
        except BrokenPipeError:
            pass  # the program has stopped early, which its answers will show
        os.close(feed)

    writer = threading.Thread(target=feeder)
    writer.start()
    came = read_all(fetch, take)
    writer.join()
    os.close(fetch)
    held(name, (came, ended(program)), (answers, (b"", 0)))


def dialogue(name, make):
    """A line is sent once the answer to the line before has come, so that the program finds nothing to read."""
    (stdin, feed), (fetch, stdout) = make(), make()
    os.set_blocking(stdin, False)
    program = start(stdin, stdout)
    os.close(stdin)
    os.close(stdout)
    came = b""
    for line in GIVEN.split(b"\n")[:200]:
        write_all(feed, line + b"\n")
        came += os.read(fetch, 13)
    os.close(feed)
    came += read_all(fetch)
    os.close(fetch)
    held(name, (came, ended(program)), (ANSWERS[: 13 * 200], (b"", 0)))


def interrupted(name, call, error, folder):
    """Two of three calls on the input or on the output fail once, by strace."""
    given, answers = os.path.join(folder, "given"), os.path.join(folder, "answers")
    with open(given, "wb") as out:
        out.write(GIVEN)
    path = given if call == "read" else answers
    with open(given, "rb") as stdin, open(answers, "wb") as stdout:
        done = subprocess.run(
            ["strace", "-o", "/dev/null", "-P", path, "-e", "trace=" + call]
            + ["-e", "inject=%s:error=%s:when=1+3" % (call, error), PROGRAM],
            stdin=stdin,
            stdout=stdout,
            stderr=subprocess.PIPE,
        )
    with open(answers, "rb") as came:
        held(name, (came.read(), done.stderr, done.returncode), (ANSWERS, b"", 0))


def strace_works(folder):
    if not shutil.which("strace"):
        return False
    words = ["strace", "-o", os.path.join(folder, "trace"), "-e", "inject=read:error=EINTR:when=60000", "true"]
    return subprocess.run(words, stderr=subprocess.DEVNULL).returncode == 0


def refuse(name, wanted, stdin, stdout, status=0, **more):
    """What is said where a descriptor is closed or refuses."""
    program = start(stdin, stdout, **more)
    held(name, ended(program), (wanted, status))


def closed(fd):
    return lambda: os.close(fd)


def descriptors(folder):
    given = os.path.join(folder, "given")
    with open(given, "wb") as out:
        out.write(GIVEN)
    null = subprocess.DEVNULL
    refuse("closed standard input", INPUT + b"Bad file descriptor\n", None, null, preexec_fn=closed(0))
    with open(given, "rb") as stdin:
        refuse("closed standard output", OUTPUT + b"Bad file descriptor\n", stdin, None, preexec_fn=closed(1))
    folder_fd = os.open(folder, os.O_RDONLY)
    refuse("a folder for input", INPUT + b"Is a directory\n", folder_fd, null)
    os.close(folder_fd)
    with open(given, "rb") as stdin, open("/dev/full", "wb") as stdout:
        refuse("/dev/full", OUTPUT + b"No space left on device\n", stdin, stdout)
    for restore in (True, False):  # the start of a program of Rattle's ignores the signal: tools/jingcobu-desk makes the status of it
        fetch, stdout = os.pipe()
        os.close(fetch)
        with open(given, "rb") as stdin:
            refuse("a reader that has gone away", OUTPUT + b"Broken pipe\n", stdin, stdout, restore_signals=restore)
        os.close(stdout)
    limits(folder, given)


def limits(folder, given):
    """A file may grow to 1000 bytes: as many are written, and then it is said, or the signal ends the program."""
    for restore, wanted, status in ((True, b"", -signal.SIGXFSZ), (False, OUTPUT + b"File too large\n", 0)):
        answers = os.path.join(folder, "cut")
        with open(given, "rb") as stdin, open(answers, "wb") as stdout:
            bound = lambda: resource.setrlimit(resource.RLIMIT_FSIZE, (1000, 1000))
            refuse("a file-size limit", wanted, stdin, stdout, status, restore_signals=restore, preexec_fn=bound)
        with open(answers, "rb") as came:
            held("a file that was cut", came.read(), ANSWERS[:1000])


def long_line(name, count):
    """A line of count MiB between two others, with 16 MiB of memory for the program."""
    program = subprocess.Popen(
        ["sh", "-c", 'ulimit -v 16384 && exec "$0"', PROGRAM],
        stdin=subprocess.PIPE,
        stdout=subprocess.PIPE,
        stderr=subprocess.PIPE,
    )
    first, last = GIVEN.split(b"\n")[:2]
    program.stdin.write(first + b"\n")
    for _ in range(count):
        program.stdin.write(b"0" * (1 << 20))
    program.stdin.write(b"\n" + last)
    program.stdin.close()
    came = program.stdout.read()
    held(name, (came, ended(program)), (ANSWERS[:13] + REFUSED + ANSWERS[13:26], (b"", 0)))


def terminal(name):
    """A terminal hands on a line at a time; two ends of file end the input."""
    feed, stdin = pty.openpty()
    fetch, stdout = os.pipe()
    program = start(stdin, stdout)
    os.close(stdout)
    first, last = GIVEN.split(b"\n")[:2]
    os.write(feed, first + b"\n")
    came = os.read(fetch, 13)
    os.write(feed, last + b"\x04\x04")
    came += read_all(fetch)
    os.close(fetch)
    held(name, (came, ended(program)), (ANSWERS[:26], (b"", 0)))
    os.close(feed)
    os.close(stdin)


def main():
    many = 200000
    talk("pipes", os.pipe, True, GIVEN, ANSWERS)
    talk("no input", os.pipe, True, b"", b"")
    talk("one byte at a time", os.pipe, True, GIVEN, ANSWERS, give=1)
    talk("a slow reader", small_pipe, True, GIVEN, ANSWERS, take=1)
    talk("non-blocking pipes", small_pipe, False, GIVEN, ANSWERS, give=100)
    talk("many answers to a non-blocking pipe", small_pipe, False, b"zz\n" * many, REFUSED * many)
    talk("many answers, read a byte at a time", small_pipe, False, b"zz\n" * 20000, REFUSED * 20000, take=1)
    talk("non-blocking sockets", socket_pair, False, b"zz\n" * many, REFUSED * many)
    dialogue("a dialogue by a non-blocking pipe", os.pipe)
    dialogue("a dialogue by a non-blocking socket", socket_pair)
    terminal("a terminal")
    long_line("a long line", 64)
    with tempfile.TemporaryDirectory() as folder:
        descriptors(folder)
        if strace_works(folder):
            for call in ("read", "write"):
                for error in ("EINTR", "EAGAIN"):
                    interrupted("%s with %s" % (call, error), call, error, folder)
        else:
            print("SKIPPED: interrupted calls (strace does not run here)")
    print("%d passed" % passed)


main()
