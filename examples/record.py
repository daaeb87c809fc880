#!/usr/bin/env python3
"""Records a dialogue: stands between a client and Warlinden, and hands on what either writes.

    record.py TRANSCRIPT -- PROGRAM serve IMAGE DIGEST NOISE

TRANSCRIPT is a file that isn't there yet. It gets each command's frame and its reply's behind it, before the client gets the reply; zeros
stand for the bytes that EntryBytes and EntryCommit bring. `PROGRAM check <TRANSCRIPT` says whether it keeps the rules. It ends as PROGRAM
does. For Python 3.8 or later; a client that waits for each reply gets it.
"""
import collections
import os
import subprocess
import sys
import threading

from transcript import command_frames, pair, reply_frames

PIECE = 65_536
CANNOT_RECORD, NOT_FOUND = 125, 127


def write_all(descriptor, piece):
    while piece:
        piece = piece[os.write(descriptor, piece) :]


class Recorder:
    """Takes what is handed on in both directions, and writes whole pairs to a file. Behind bytes that are no command nothing is recorded."""

    def __init__(self, file):
        self.file = file
        self.commands, self.replies = command_frames(), reply_frames()
        self.asked, self.is_recording = collections.deque(), True

    def take_commands(self, piece):
        try:
            if self.is_recording:
                self.asked.extend(self.commands.feed(piece))
        except ValueError:
            self.is_recording = False

    def take_replies(self, piece):
        for reply in self.replies.feed(piece):
            if not self.asked:
                raise ValueError("a reply to no command")
            self.file.write(pair(self.asked.popleft(), reply))
        self.file.flush()


def hand_commands(recorder, program):
    """From standard input to the program, up to the end of either."""
    try:
        while True:
            piece = os.read(0, PIECE)
            if not piece:
                break
            recorder.take_commands(piece)
            write_all(program.stdin.fileno(), piece)
        program.stdin.close()
    except OSError:
        # The program reads no more, or standard input can't be read: its end ends this one too.
        program.stdin.close()


def hand_replies(recorder, program):
    """From the program to standard output, up to the end of either."""
    while True:
        piece = os.read(program.stdout.fileno(), PIECE)
        if not piece:
            return
        recorder.take_replies(piece)
        try:
            write_all(1, piece)
        except BrokenPipeError:
            # The program then finds that its replies are read by nobody.
            return


def stop(program, reason):
    """Ends a program whose dialogue can't be recorded."""
    program.kill()
    program.wait()
    print(f"record: {reason}", file=sys.stderr)
    return CANNOT_RECORD


def record(path, words):
    # Nobody else may read it, and no transcript is written over.
    with os.fdopen(os.open(path, os.O_WRONLY | os.O_CREAT | os.O_EXCL, 0o600), "wb") as file:
        try:
            program = subprocess.Popen(words, stdin=subprocess.PIPE, stdout=subprocess.PIPE, bufsize=0)
        except OSError as fault:
            print(f"record: cannot start {words[0]}: {fault.strerror}", file=sys.stderr)
            return NOT_FOUND
        recorder = Recorder(file)
        threading.Thread(target=hand_commands, args=(recorder, program), daemon=True).start()
        try:
            hand_replies(recorder, program)
        except ValueError as fault:
            return stop(program, f"the program wrote what is no reply: {fault}")
        except OSError as fault:
            return stop(program, f"cannot write: {fault.strerror}")
        program.stdout.close()
        status = program.wait()
        return status if status >= 0 else 128 - status


def main(words):
    if len(words) < 3 or words[1] != "--":
        print(__doc__.split("\n\n")[1], file=sys.stderr)
        return 2
    try:
        return record(words[0], words[2:])
    except KeyboardInterrupt:
        return 130
    except OSError as fault:
        print(f"record: cannot write {words[0]}: {fault.strerror}", file=sys.stderr)
        return CANNOT_RECORD


if __name__ == "__main__":
    # The thread that reads standard input may wait for ever, and isn't waited for.
    status = main(sys.argv[1:])
    sys.stderr.flush()
    os._exit(status)
