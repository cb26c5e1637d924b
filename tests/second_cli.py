#!/usr/bin/env python3
"""The line protocol of referee_cli, spoken by the second referee.

One command a line on standard input, one answer a line on standard output.
"""

import re
import sys

import second_referee as referee

MOST_TABLE_BYTES = 70_000
MOST_LINE = len("table ") + 2 * MOST_TABLE_BYTES
MOST_WORD_NUMBER = 65_535
MODEL_POSITION_BYTES = 512
MODEL_CHOICE_BYTES = 16
HELP = ("commands: table HEX, load FILE, check, claim, open, offer SEAT MOVE, play, "
        "message SEAT [ROOM], hidden SEAT SEAT MOVE, model HEX HEX [ROOM], "
        "record [HEX], help")


class BadLine(Exception):
    """A line that is no command; its text says what is wrong."""


def read_decimal(word):
    if not re.fullmatch("[0-9]+", word):
        raise BadLine("not a decimal number")
    digits = word.lstrip("0") or "0"
    if len(digits) > 5 or int(digits) > MOST_WORD_NUMBER:
        raise BadLine("number over 65535")
    return int(digits)


def read_hex(word):
    if word == "-":
        return b""
    if len(word) % 2 or not re.fullmatch("[0-9a-fA-F]+", word):
        raise BadLine("odd or wrong hex")
    return bytes.fromhex(word)


def write_hex(data):
    return data.hex() or "-"


def write_words(*words):
    return " ".join(str(word) for word in words)


class Desk:
    """The current table and the current record, and an answer to each line."""

    def __init__(self):
        self.table = b""
        self.record = referee.BLANK
        self.commands = {
            "table": (self.set_table, (1,)),
            "load": (self.load_table, (1,)),
            "check": (self.check, (0,)),
            "claim": (self.claim, (0,)),
            "open": (self.open_session, (0,)),
            "offer": (self.offer, (2,)),
            "play": (self.play, (0,)),
            "message": (self.message, (1, 2)),
            "hidden": (self.hidden, (3,)),
            "model": (self.model, (2, 3)),
            "record": (self.show_or_set_record, (0, 1)),
            "help": (lambda: HELP, (0,)),
        }

    def answer(self, line):
        """The answer to one line, which is given without its line end."""
        try:
            if len(line) > MOST_LINE:
                raise BadLine("line too long")
            words = line.split(" ")
            if "" in words:
                raise BadLine("empty line or extra blank")
            if words[0] not in self.commands:
                raise BadLine("unknown command")
            command, word_counts = self.commands[words[0]]
            if len(words) - 1 not in word_counts:
                raise BadLine("missing or extra word")
            return command(*words[1:])
        except BadLine as fault:
            return f"error {fault}"

    def take_table(self, data):
        if len(data) > MOST_TABLE_BYTES:
            raise BadLine("table over 70000 bytes")
        self.table = data
        return write_words("ok", len(data))

    def set_table(self, word):
        return self.take_table(read_hex(word))

    def load_table(self, name):
        try:
            with open(name, "rb") as file:
                data = file.read(MOST_TABLE_BYTES + 1)
        except (OSError, ValueError):
            raise BadLine("no such file") from None
        return self.take_table(data)

    def check(self):
        return write_words(*referee.check(self.table))

    def claim(self):
        return write_words(*referee.claim(self.table))

    def open_session(self):
        number, place, self.record = referee.open_session(self.table)
        return write_words(number, place)

    def offer(self, seat, move):
        number, place, self.record = referee.offer(
            self.table, self.record, read_decimal(seat), read_decimal(move))
        return write_words(number, place)

    def play(self):
        number, place, self.record = referee.play(self.table, self.record)
        return write_words(number, place)

    def message(self, seat, room="1024"):
        lent = bytearray(read_decimal(room))
        number, place, length = referee.message(
            self.table, self.record, read_decimal(seat), lent)
        return write_words(number, place, length, write_hex(lent[:length]))

    def hidden(self, asking, moving, move):
        return write_words(*referee.hidden(
            self.table, read_decimal(asking), read_decimal(moving), read_decimal(move)))

    def model(self, position_word, choices_word, room="1024"):
        position, choices = read_hex(position_word), read_hex(choices_word)
        if len(position) != MODEL_POSITION_BYTES or len(choices) != MODEL_CHOICE_BYTES:
            raise BadLine("position or choices of another length")
        lent = bytearray(read_decimal(room))
        number, place = referee.model(
            self.table, position, referee.choices_from_bytes(choices), lent)
        atoms = 0 if number else len(referee.accepted(self.table).atoms)
        return write_words(number, place, write_hex(lent[:atoms]))

    def show_or_set_record(self, word=None):
        if word is None:
            return self.record.to_bytes().hex()
        data = read_hex(word)
        if len(data) != referee.RECORD_BYTES:
            raise BadLine("a record has 2580 bytes")
        self.record = referee.Record.from_bytes(data)
        return write_words("ok", len(data))


def main():
    desk = Desk()
    for line in sys.stdin.buffer:
        # Bytes outside ASCII must give an error answer and never a traceback.
        text = line.removesuffix(b"\n").decode("latin-1")
        print(desk.answer(text), flush=True)


if __name__ == "__main__":
    try:
        main()
    except (BrokenPipeError, KeyboardInterrupt):
        sys.stderr.close()
