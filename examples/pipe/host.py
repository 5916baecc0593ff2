"""Talks with the command program over pipes, and takes the system away from it in several ways: host.py PROGRAM.
A line for each thing tried; it stops at the first that differs, says what came and what was expected, and fails."""
import fcntl
import os
import signal
import subprocess
import sys
import time
import tty

program = sys.argv[1]
pipe = subprocess.PIPE


def expect(what, got, wanted):
    if got != wanted:
        sys.exit(f"{what}: DIFFERS\n  came     {got!r}\n  expected {wanted!r}")
    print(f"{what}: as it should be", flush=True)


def start(**how):
    return subprocess.Popen([program], stdin=how.pop("stdin", pipe), stdout=how.pop("stdout", pipe), stderr=pipe, **how)


def ask(child, line):
    child.stdin.write(line)
    child.stdin.flush()
    return child.stdout.readline()


def one_line_at_a_time():
    child = start()
    script = open("examples/station/script", "rb").read().splitlines(keepends=True)
    answers = open("examples/station/answers", "rb").read().splitlines(keepends=True)
    signal.alarm(20)  # an answer that waits for more input never comes
    got = [ask(child, line) for line in script]
    signal.alarm(0)
    expect("one line sent, one answer had, before the next is sent", got, answers)
    out, err = child.communicate()
    expect("nothing more at the end", (out, err), (b"", b""))


def byte_by_byte():
    child = start()
    for byte in b"O,2,6,6,0\nA,1,1,3,2\nR":
        child.stdin.write(bytes([byte]))
        child.stdin.flush()
        time.sleep(0.002)
    out, err = child.communicate()
    expect("a script that comes byte by byte, its last line without an end", (out, err), (b"O,0\nA,1,0\nR,0,2,1,1\n", b""))


def input_that_would_block():
    reader, writer = os.pipe()
    fcntl.fcntl(reader, fcntl.F_SETFL, os.O_NONBLOCK)
    child = start(stdin=reader)
    os.close(reader)
    for part in (b"O,2,6", b",6,0\nA,1,", b"1,3,2\nR\n"):
        time.sleep(0.05)
        os.write(writer, part)
    os.close(writer)
    out, err = child.communicate()
    expect("an input set not to block is waited for", (out, err), (b"O,0\nA,1,0\nR,0,2,1,1\n", b""))


def output_that_would_block():
    reader, writer = os.pipe()
    fcntl.fcntl(writer, fcntl.F_SETFL, os.O_NONBLOCK)
    child = start(stdout=writer)
    os.close(writer)
    lines = 300000
    feeder = os.fork()
    if feeder == 0:
        child.stdin.write(b"X\n" * lines)
        child.stdin.close()
        os._exit(0)
    child.stdin.close()
    read = []
    while True:
        part = os.read(reader, 4096)
        if not part:
            break
        read.append(part)
    os.waitpid(feeder, 0)
    answers = b"".join(read).splitlines()
    expect("an output set not to block is waited for", answers == [b"E,20,%d" % n for n in range(1, lines + 1)], True)
    child.wait()


def failed_read():
    folder = os.open(".", os.O_RDONLY)
    child = start(stdin=folder)
    out, err = child.communicate()
    expect("an input that cannot be read", (out, err), (b"", b"standard input cannot be read on; last line answered: 0\n"))


def cut_line_after_a_failed_read():
    # a pseudo terminal whose other end is gone gives an error and no end of input
    ours, theirs = os.openpty()
    tty.setraw(theirs)
    child = start(stdin=theirs)
    os.close(theirs)
    os.write(ours, b"O,2,6,6,0\nA,1,1,30,2")
    time.sleep(0.2)
    os.close(ours)
    out, err = child.communicate()
    expect("a line cut by a failed read is not run", (out, err), (b"O,0\n", b"standard input cannot be read on; last line answered: 1\n"))


def stopped_and_going_on():
    # nothing may be lost where the program is stopped in a read
    child = start()
    first = ask(child, b"O,2,6,6,0\n")
    for _ in range(5):
        child.send_signal(signal.SIGSTOP)
        time.sleep(0.02)
        child.send_signal(signal.SIGCONT)
    second = ask(child, b"R\n")
    child.stdin.close()
    child.wait()
    expect("a program that is stopped and goes on", (first, second), (b"O,0\n", b"R,0,7,0\n"))


def full_device():
    full = os.open("/dev/full", os.O_WRONLY)
    child = start(stdout=full)
    _, err = child.communicate(b"O,2,6,6,0\nX\n")
    expect("an output that is full", err, b"standard output cannot be written on; last line answered: 0\n")


for part in (
    one_line_at_a_time,
    byte_by_byte,
    input_that_would_block,
    output_that_would_block,
    failed_read,
    cut_line_after_a_failed_read,
    stopped_and_going_on,
    full_device,
):
    part()
