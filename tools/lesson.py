#!/usr/bin/env python3
"""Builds and tries lessons.

    tools/lesson.py build FOLDER...         writes FOLDER/blocks.dat from FOLDER/blocks.txt
    tools/lesson.py check FOLDER...         says whether FOLDER/blocks.dat is what blocks.txt describes
    tools/lesson.py run PROGRAM FOLDER...   runs PROGRAM in each folder on its script, compares with its printout
    tools/lesson.py gate                    writes crates/lessons/stdout from the printouts of all lessons

A folder holds blocks.txt (the description), blocks.dat (the block file), script and printout.

The description is read line by line. What follows a # is a comment, indentation is free.
Numbers are decimal. Identifier n is the number n in 32 bytes, the last byte the least, so that
identifier 7 is 31 zero bytes and the byte 07. BYTES are hexadecimal without spaces; BYTES*N repeats them N times.

    block ID after ID            a record with a block: its identifier and the previous one
      tx ID                        a transaction of the block, with its inputs and outputs:
        coinbase BYTES               the null outpoint with this witness
        spend TX:INDEX badge ARG     an outpoint; the witness is ARG in 8 bytes, least byte first
        spend TX:INDEX clock         the witness is empty
        spend TX:INDEX hex BYTES     the witness is BYTES
        pay VALUE KIND ARG           an output

Damage, inside a block:

      txcount BYTES                these bytes in place of the count of transactions
        incount BYTES                in place of the count of this transaction's inputs
        outcount BYTES               in place of the count of its outputs
        size BYTES                   in place of the length of the last input's witness
      tail BYTES                   after the last transaction
      cut N                        keeps the first N bytes of the block
      length N                     the record claims a length of N bytes

Outside of blocks:

    hex BYTES                    a record with exactly these bytes as its block; "hex" alone is a record of 0 bytes
    loose BYTES                  bytes of the file that are in no record

Repetition, anywhere and not nested:

    repeat A B                   the lines up to "end" once for each number from A to B,
    end                          where {n} stands for the number, {n+5} and {n-1} for one reckoned from it
"""
import re
import subprocess
import sys
from pathlib import Path

LESSONS = Path(__file__).resolve().parent.parent / "crates" / "lessons"
NULL = bytes(32) + b"\xff" * 4


class Mistake(Exception):
    """A description that cannot be read."""


def number(text, size, order="little"):
    return int(text).to_bytes(size, order)


def identifier(text):
    return number(text, 32, "big")


def raw(text):
    digits, star, times = text.partition("*")
    return bytes.fromhex(digits) * (int(times) if star else 1)


def compact(n):
    if n <= 252:
        return bytes([n])
    if n <= 0xFFFF:
        return b"\xfd" + n.to_bytes(2, "little")
    if n <= 0xFFFFFFFF:
        return b"\xfe" + n.to_bytes(4, "little")
    return b"\xff" + n.to_bytes(8, "little")


class Input:
    def __init__(self, outpoint, witness):
        self.outpoint, self.witness, self.size = outpoint, witness, compact(len(witness))

    def bytes(self):
        return self.outpoint + self.size + self.witness


class Transaction:
    def __init__(self, ident):
        self.ident, self.inputs, self.outputs = ident, [], []
        self.incount = self.outcount = None

    def bytes(self):
        return (self.ident + (self.incount or compact(len(self.inputs)))
                + b"".join(i.bytes() for i in self.inputs)
                + (self.outcount or compact(len(self.outputs))) + b"".join(self.outputs))


class Block:
    def __init__(self, ident, previous):
        self.front, self.transactions = ident + previous, []
        self.txcount, self.tail, self.cut, self.length = None, b"", None, None

    def bytes(self):
        block = (self.front + (self.txcount or compact(len(self.transactions)))
                 + b"".join(t.bytes() for t in self.transactions) + self.tail)[:self.cut]
        return number(len(block) if self.length is None else self.length, 4) + block


class Loose:
    def __init__(self, content):
        self.content = content

    def bytes(self):
        return self.content


def witness(words):
    how, *rest = words
    if how == "badge":
        return number(rest[0], 8)
    if how == "clock" and not rest:
        return b""
    if how == "hex":
        return raw(rest[0])
    raise Mistake("a witness is badge ARG, clock or hex BYTES")


def spend(words):
    ident, index = words[0].split(":")
    return Input(identifier(ident) + number(index, 4), witness(words[1:]))


def read_line(parts, words):
    """Adds what one line describes to the parts of the file."""
    word, *rest = words
    block = parts[-1] if parts and isinstance(parts[-1], Block) else None
    tx = block.transactions[-1] if block and block.transactions else None
    match word:
        case "block" if len(rest) == 3 and rest[1] == "after":
            parts.append(Block(identifier(rest[0]), identifier(rest[2])))
        case "hex":
            content = raw("".join(rest))
            parts.append(Loose(number(len(content), 4) + content))
        case "loose":
            parts.append(Loose(raw(rest[0])))
        case "tx" if block:
            block.transactions.append(Transaction(identifier(rest[0])))
        case "txcount" | "tail" if block:
            setattr(block, word, raw(rest[0]))
        case "cut" | "length" if block:
            setattr(block, word, int(rest[0]))
        case "coinbase" if tx:
            tx.inputs.append(Input(NULL, raw("".join(rest))))
        case "spend" if tx:
            tx.inputs.append(spend(rest))
        case "pay" if tx:
            value, kind, argument = rest
            tx.outputs.append(number(value, 8) + number(kind, 1) + number(argument, 8))
        case "incount" | "outcount" if tx:
            setattr(tx, word, raw(rest[0]))
        case "size" if tx and tx.inputs:
            tx.inputs[-1].size = raw(rest[0])
        case _:
            raise Mistake("not a line of the form")


def filled(word, n):
    return re.sub(r"\{n([+-]\d+)?\}", lambda found: str(n + int(found[1] or 0)), word)


def lines(text):
    """The lines that say something, with their numbers, repetitions written out."""
    body, numbers = None, range(0)
    for at, line in enumerate(text.splitlines(), 1):
        words = line.partition("#")[0].split()
        if not words:
            continue
        if words[0] == "repeat":
            body, numbers = [], range(int(words[1]), int(words[2]) + 1)
        elif words[0] == "end":
            for n in numbers:
                yield from ((a, [filled(w, n) for w in ws]) for a, ws in body)
            body = None
        elif body is None:
            yield at, words
        else:
            body.append((at, words))


def build(text):
    """The block file that a description stands for."""
    parts = []
    for at, words in lines(text):
        try:
            read_line(parts, words)
        except (Mistake, ValueError, IndexError, OverflowError) as fault:
            raise SystemExit(f"line {at}: {' '.join(words)}: {fault}")
    return b"".join(part.bytes() for part in parts)


def try_program(program, folder):
    """None, or the first line in which the program's printout differs."""
    done = subprocess.run([program], input=(folder / "script").read_bytes(), cwd=folder, capture_output=True)
    got, want = done.stdout.split(b"\n"), (folder / "printout").read_bytes().split(b"\n")
    for n, (g, w) in enumerate(zip(got, want), 1):
        if g != w:
            return f"line {n}: printed {g!r}, expected {w!r}"
    if len(got) != len(want):
        return f"printed {len(got) - 1} lines, expected {len(want) - 1}"
    return f"status {done.returncode}" if done.returncode else None


def gate():
    """What the program of all lessons must write: each printout under the lesson's name."""
    folders = sorted(folder for folder in (LESSONS / "data").iterdir() if folder.is_dir())
    return b"".join(b"lesson " + folder.name.encode() + b"\n" + (folder / "printout").read_bytes()
                    for folder in folders)


def main(words):
    if words == ["gate"]:
        (LESSONS / "stdout").write_bytes(gate())
        return 0
    if len(words) < 2 or words[0] not in ("build", "check", "run"):
        raise SystemExit(__doc__)
    command, *rest = words
    program = str(Path(rest.pop(0)).resolve()) if command == "run" else None
    bad = 0
    for folder in map(Path, rest):
        if command == "run":
            fault = try_program(program, folder)
        else:
            content = build((folder / "blocks.txt").read_text())
            if command == "build":
                (folder / "blocks.dat").write_bytes(content)
            fault = None if (folder / "blocks.dat").read_bytes() == content else "blocks.dat is not what blocks.txt describes"
        print(f"{folder}: {fault or 'good'}")
        bad += fault is not None
    return 1 if bad else 0


if __name__ == "__main__":
    sys.exit(main(sys.argv[1:]))
