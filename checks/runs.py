"""Runs of the built program, and how the checks write them down.

A run is written as a line '$ rm_match WORDS', then what it printed, with '! ' before each line of the standard error, and at last its
status in brackets. The words may end with '> FILE' or '2> FILE', which gives the program that file in place of a stream; '\\xff' in a
word is the byte FF, which is no UTF-8.
"""

import os
import shlex
import shutil
import subprocess
import sys
import tempfile

TOP = os.path.dirname(os.path.dirname(os.path.abspath(__file__)))
NOBODY = 65534


def program_of(words):
    """The program that the words name, or else the one that was built here."""
    path = os.path.abspath(words[0]) if words else os.path.join(TOP, "crates", "rm_match", "out", "rm_match")
    if not os.access(path, os.X_OK):
        sys.exit("%s is not built: rt ci builds it, and ./run" % path)
    return path


class Room:
    """A folder of its own to run the program in: it sees the repository's examples/ and checks/, and a folder unreadable/ whose last table
    may not be read."""

    def __init__(self, program):
        self.held = tempfile.TemporaryDirectory(prefix="rm_match-")
        self.at = self.held.name
        os.chmod(self.at, 0o755)
        for name in ("examples", "checks"):
            os.symlink(os.path.join(TOP, name), os.path.join(self.at, name))
        self.program = shutil.copy(program, os.path.join(self.at, "rm_match"))
        os.chmod(self.program, 0o755)
        unreadable = os.path.join(self.at, "unreadable")
        shutil.copytree(os.path.join(TOP, "examples", "two_hospitals"), unreadable)
        os.chmod(os.path.join(unreadable, "ranks.csv"), 0)

    def run(self, line):
        """Runs the program with the words of a line: its status, and what it wrote to the standard output and the standard error."""
        words, streams = shlex.split(line.replace("\\xff", "\udcff")), {">": subprocess.PIPE, "2>": subprocess.PIPE}
        while len(words) > 1 and words[-2] in streams:
            streams[words[-2]] = open(words[-1], "wb", buffering=0)
            words = words[:-2]
        # the system's own user may read everything
        as_nobody = "unreadable" in words and os.geteuid() == 0
        ran = subprocess.run(
            [self.program] + words, cwd=self.at, stdin=subprocess.DEVNULL, stdout=streams[">"], stderr=streams["2>"],
            preexec_fn=become_nobody if as_nobody else None,
        )
        return ran.returncode, ran.stdout or b"", ran.stderr or b""

    def written(self, line):
        """The run of a line, as it is written down."""
        status, out, err = self.run(line)
        return "%s\n%s%s[status %d]\n" % (("$ rm_match " + line).rstrip(), shown(out, ""), shown(err, "! "), status)


def become_nobody():
    os.setgroups([])
    os.setgid(NOBODY)
    os.setuid(NOBODY)


def shown(text, mark):
    """Each line of a stream behind its mark. A last line without an end is told."""
    lines = text.decode("utf-8", "backslashreplace").split("\n")
    last = lines.pop()
    return "".join(mark + line + "\n" for line in lines) + (mark + last + "\n\\ no newline\n" if last else "")


def rewritten(text, room):
    """A text with each run in it made anew, and the lines that tell the runs. What stands between runs stays."""
    parts, lines, inside = [], [], False
    for line in text.splitlines(keepends=True):
        if line.startswith("$ rm_match"):
            lines.append(line[len("$ rm_match"):].strip())
            parts.append(room.written(lines[-1]))
            inside = True
        elif not inside:
            parts.append(line)
        elif line.startswith("[status "):
            inside = False
    return "".join(parts), lines


def counted(counts):
    """How many there were of each word, for a reader."""
    return ", ".join("%d %s" % (count, word) for word, count in sorted(counts.items()))


def difference(name, wanted, got):
    """The lines in which two texts differ, for a reader, or nothing."""
    import difflib
    names = ("%s as it stands" % name, "what the program prints")
    return "".join(difflib.unified_diff(wanted.splitlines(keepends=True), got.splitlines(keepends=True), *names))
