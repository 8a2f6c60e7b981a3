"""Reads logs of both versions (docs/LOG.md), as far as the tools beside the program need it: the head, and each line with the entries that it stands for."""
import re
from dataclasses import dataclass

LINE = re.compile(r"(\d+) (\d+) ([a-z]+) ([A-Zsmcbrw][\d.]*)(?:-(\d+))?")


class NoLog(Exception):
    """The text is no log; `line` is the first that isn't as it should be, from 1."""

    def __init__(self, line, what):
        super().__init__(f"line {line}: {what}")
        self.line = line


@dataclass
class Entry:
    """A line of a log: one entry, or some on neighbouring stripes of a weak lock."""

    line: int  # of the file, from 1
    first: int  # the position of its first entry, from 0, as `wrong entry K` counts
    thread: int
    count: int
    op: str
    objects: list  # one for each entry

    def last(self):
        return self.first + len(self.objects) - 1

    def told_object(self):
        """The object as the log tells it."""
        if len(self.objects) == 1:
            return self.objects[0]
        return f"{self.objects[0]}-{self.objects[-1].split('.')[1]}"


@dataclass
class Log:
    version: int
    head: dict  # slots, cells, limit: numbers; pairs: the profile's, or None for all
    entries: list


def head_of(lines):
    """The head's values, and how many lines it has."""
    head, at = {}, 1
    for name in ("slots", "cells", "limit"):
        word = lines[at].split(" ") if at < len(lines) else []
        if len(word) != 2 or word[0] != name or not word[1].isdigit():
            raise NoLog(at + 1, f"`{name}` and a number should stand here")
        head[name] = int(word[1])
        at += 1
    found = re.fullmatch(r"profile (all|\d+)", lines[at] if at < len(lines) else "")
    if not found:
        raise NoLog(at + 1, "the profile should stand here")
    count = 0 if found[1] == "all" else int(found[1])
    head["pairs"] = None if found[1] == "all" else [tuple(it.split(" ")[1:]) for it in lines[at + 1 : at + 1 + count]]
    at += 1 + count
    if at >= len(lines) or not re.fullmatch(r"input \d+", lines[at]):
        raise NoLog(at + 1, "the input's length should stand here")
    return head, at + 2


def objects_of(obj, last, at):
    """The objects that a line names."""
    if last is None:
        return [obj]
    lock, _, stripe = obj.partition(".")
    if not lock.startswith("w") or not stripe or int(last) <= int(stripe):
        raise NoLog(at, "only stripes that ascend share a line")
    return [f"{lock}.{it}" for it in range(int(stripe), int(last) + 1)]


def read(text):
    """The log that a text is."""
    lines = text.split("\n")
    found = re.fullmatch(r"chimera log ([12])", lines[0])
    if not found:
        raise NoLog(1, "no log of version 1 or 2 begins so")
    head, start = head_of(lines)
    entries, position = [], 0
    for number, line in enumerate(lines[start:], start + 1):
        if line == "" and number == len(lines):
            break
        it = LINE.fullmatch(line)
        if not it:
            raise NoLog(number, "this is no entry")
        objects = objects_of(it[4], it[5], number)
        entries.append(Entry(number, position, int(it[1]), int(it[2]), it[3], objects))
        position += len(objects)
    return Log(int(found[1]), head, entries)


def entry_at(log, position):
    """The line that the entry at this position stands on, or None behind the last."""
    return next((it for it in log.entries if it.first <= position <= it.last()), None)
