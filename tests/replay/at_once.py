"""at_once.py COMMAND ..: talks to the command over two pipes. Each line of a kept trace is sent once the reply to the one
before it has come, which must be the kept one; a reply that does not come within SECONDS is one that waits for its
output's end."""
import os
import select
import subprocess
import sys

KEPT = os.path.join(os.path.dirname(os.path.dirname(os.path.abspath(__file__))), "traces", "kept", "job-implicit")
SECONDS = 20


def lines(ending):
    with open(KEPT + ending, encoding="ascii") as file:
        return file.read().splitlines()


def reply(pipe):
    """The next line from the pipe, as much of it as comes in time."""
    got = b""
    while not got.endswith(b"\n") and select.select([pipe], [], [], SECONDS)[0]:
        part = os.read(pipe.fileno(), 65536)
        if not part:
            break
        got += part
    return got.decode("ascii")


def talk(program):
    """How many replies came in time, and what is wrong with the next one; None where all came."""
    sent = lines(".trace")
    for i, (line, wanted) in enumerate(zip(sent, lines(".replies"))):
        program.stdin.write(line.encode("ascii") + b"\n")
        program.stdin.flush()
        got = reply(program.stdout)
        if got != wanted + "\n":
            return i, f"call {i + 1}: {line[:100]}\n    wanted   {wanted[:200]}\n    had come {got[:200]!r}"
    return len(sent), None


def main():
    with subprocess.Popen(sys.argv[1:], stdin=subprocess.PIPE, stdout=subprocess.PIPE, bufsize=0) as program:
        came, wrong = talk(program)
        if wrong is not None:
            program.kill()
    print(f"replay: {came} replies came before the next line was sent")
    if wrong is not None:
        print(f"FAILED at once: {wrong}\n{came} passed, 1 failed")
        sys.exit(1)


if __name__ == "__main__":
    main()
