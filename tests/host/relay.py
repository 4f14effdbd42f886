#!/usr/bin/env python3
"""A device that tells one status in the place of another.

tests/host/relay.py STATUS OTHER COMMAND..: passes lines on to rpmcrun, which the command runs, and its answers
back. Where an answer to `R` begins with STATUS, it begins with OTHER here.
"""

import subprocess
import sys


def main():
    status, other, *command = sys.argv[1:]
    with subprocess.Popen(command, stdin=subprocess.PIPE, stdout=subprocess.PIPE, bufsize=0) as device:
        answer = device.stdout.readline()
        while answer:
            text = answer.decode()
            if text.startswith(f"R 0 {status}"):
                text = f"R 0 {other}" + text[len(f"R 0 {status}") :]
            sys.stdout.write(text)
            sys.stdout.flush()
            line = sys.stdin.buffer.readline()
            if not line:
                break
            device.stdin.write(line)
            answer = device.stdout.readline()


if __name__ == "__main__":
    main()
