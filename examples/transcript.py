"""Transcripts of dialogues with Warlinden: each command's frame, and its reply's behind it, with entered bytes blanked.

For Python 3.8 or later and client.py beside it. docs/INTERFACE.md says what a transcript is, and what `check` says of one.
"""
from client import HEADER_LENGTHS, LARGEST_BODY, LARGEST_PAYLOAD, Service

BRING_SECRETS = (Service.EntryBytes, Service.EntryCommit)
COMMAND_LENGTHS = {1: 8, 2: 12}


class Frames:
    """Makes whole frames of bytes that come in any pieces."""

    def __init__(self, first, lengths, length_at, longest):
        self.first, self.lengths, self.length_at, self.longest = first, lengths, length_at, longest
        self.held = b""

    def feed(self, piece):
        """Yields the frames that are whole with this piece, one after another; what is left is held."""
        self.held += piece
        while True:
            length = self.length()
            if length is None or len(self.held) < length:
                return
            frame, self.held = self.held[:length], self.held[length:]
            yield frame

    def length(self):
        """The length of the frame that the bytes held begin; None where they don't tell yet. Bytes that begin none are a ValueError."""
        held = self.held
        if held and held[0] != self.first or len(held) > 1 and held[1] not in self.lengths:
            raise ValueError(f"no frame begins with {held[:2].hex()}")
        if len(held) < self.length_at + 4:
            return None
        told = int.from_bytes(held[self.length_at : self.length_at + 4], "big")
        if told > self.longest:
            raise ValueError(f"no frame tells a length of {told}")
        return self.lengths[held[1]] + told


def command_frames():
    return Frames(0xC5, COMMAND_LENGTHS, 4, LARGEST_BODY)


def reply_frames():
    return Frames(0x5C, HEADER_LENGTHS, 20, LARGEST_PAYLOAD)


def blanked(command):
    """The frame of a command, with zeros for the bytes that EntryBytes and EntryCommit bring."""
    head = COMMAND_LENGTHS[command[1]]
    return command[:head] + bytes(len(command) - head) if command[2] in BRING_SECRETS else command


def pair(command, reply):
    """What a transcript has of a command and its reply."""
    return blanked(command) + reply
