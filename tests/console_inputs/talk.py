"""Talks to a console: a prompt on a terminal alone, each answer before the next line, no line cut by the terminal.

python3 tests/console_inputs/talk.py CONSOLE, called by tests/console.sh
"""
import os
import pty
import select
import subprocess
import sys

REFUSAL = "line 3: the plan, column 8: 5 is no command of this catalogue\n"


def start_on_terminal(console):
    child, terminal = pty.fork()
    if child == 0:
        os.execv(console, [console])
    return child, terminal


def expect(place, file, wanted):
    """Reads until the wanted text has come; ends with a message if another comes, or none within 20 seconds."""
    got = ""
    while got != wanted:
        if not wanted.startswith(got) or not select.select([file], [], [], 20)[0]:
            sys.exit("%s: %r instead of %r" % (place, got, wanted))
        got = (got + os.read(file, 65536).decode()).replace("\r\n", "\n")


def expect_status_1(place, status):
    if status != 1:
        sys.exit("%s: exit status %d instead of 1" % (place, status))


def talk_on_terminal(console):
    child, terminal = start_on_terminal(console)
    expect("terminal", terminal, "> ")
    for line, answer in [("commands 4\n", ""), ("normal 1 3 -1\n", "normal form: 3\n"), ("normal 5\n", REFUSAL)]:
        os.write(terminal, line.encode())
        expect("terminal", terminal, line + answer + "> ")
    os.write(terminal, b"\x04")
    expect("terminal", terminal, "\n")
    expect_status_1("terminal", os.WEXITSTATUS(os.waitpid(child, 0)[1]))


def talk_in_pipes(console):
    process = subprocess.Popen([console], stdin=subprocess.PIPE, stdout=subprocess.PIPE, stderr=subprocess.PIPE)
    os.write(process.stdin.fileno(), b"commands 4\nnormal 1 3 -1\n")
    expect("pipe", process.stdout.fileno(), "normal form: 3\n")
    os.write(process.stdin.fileno(), b"normal 5\n")
    expect("pipe", process.stderr.fileno(), REFUSAL)
    process.stdin.close()
    expect_status_1("pipe", process.wait())


def talk_into_file(console):
    """Typed on a terminal, printed elsewhere: no prompt there."""
    terminal, typed = pty.openpty()
    process = subprocess.Popen([console], stdin=typed, stdout=subprocess.PIPE)
    os.write(terminal, b"commands 4\nnormal 1\nquit\n")
    expect("output of a terminal's input", process.stdout.fileno(), "normal form: 1\n")
    if process.wait() != 0 or process.stdout.read() != b"":
        sys.exit("output of a terminal's input: not as expected")


def hand_over_long_line(console):
    """The terminal drops what stands behind 4,095 bytes, here the pair 2-3."""
    child, terminal = start_on_terminal(console)
    os.write(terminal, b"commands 4\nconflicts 1-2" + b" " * 4090 + b"2-3\nnormal 2 3 -2\nquit\n")
    got = b""
    try:
        while select.select([terminal], [], [], 20)[0]:
            got += os.read(terminal, 65536)
    except OSError:  # the console has ended
        pass
    if b"line 2: nothing of this line is taken: over 4,094 bytes" not in got or b"normal form" in got:
        sys.exit("long line on a terminal: %r" % got)
    expect_status_1("long line on a terminal", os.WEXITSTATUS(os.waitpid(child, 0)[1]))


for talk in talk_on_terminal, talk_in_pipes, talk_into_file, hand_over_long_line:
    talk(sys.argv[1])
