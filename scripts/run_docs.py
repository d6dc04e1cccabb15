#!/usr/bin/env python3
"""Runs what README.md and docs/*.md show as run, and compares what is shown with what comes.

    scripts/run_docs.py PROGRAM [FILES]

In a block of code a line that begins with `$ ` is a command of bash, `> ` goes on with it, and the lines up to the next command are what it
prints on both outputs. A file's commands run one after the other in one shell, as they would be pasted, in a folder of their own that has the
checkout's scripts, examples and crates, so the checkout stays as it is.
"""
import glob
import os
import re
import signal
import subprocess

from harness import TOP, Difference, tried

# No document takes as many seconds as this; one that does hangs.
LONGEST = 300

SHARED = ("scripts", "examples", "crates", "docs", "crates.txt", "HANDLES")


def blocks_of(text):
    """The blocks of code: those between fences, and those that are indented by four blanks after an empty line."""
    fenced, indented, before = None, [], ""
    for line in text.splitlines() + [""]:
        if line.startswith("```"):
            if fenced is not None:
                yield fenced
            fenced = [] if fenced is None else None
        elif fenced is not None:
            fenced.append(line)
        elif line.startswith("    ") and (indented or not before.strip()):
            indented.append(line[4:])
        elif indented and line:
            yield indented
            indented = []
        elif indented:
            indented.append("")
        before = line
    if indented:
        yield indented


def commands_of(text):
    """Each command that is shown with what it prints."""
    for block in blocks_of(text):
        command, shown = None, []
        for line in [*block, "$ "]:
            if line.startswith("$ "):
                if command is not None:
                    yield command, "\n".join(shown).strip("\n")
                command, shown = line[2:], []
            elif command is not None and line.startswith(">") and not shown:
                command += "\n" + line[1:].removeprefix(" ")
            else:
                shown.append(line)


# What the shell prints after each command, so that what one prints is told from what the next does.
END = "\x1e"


def run(commands, folder):
    """What each of these commands prints, up to the first that ends the shell."""
    text = "\n".join(f"{command}\nprintf '\\036'" for command in commands)
    # Whoever hangs is stopped with all that it has started: the shell leads a group of its own.
    shell = subprocess.Popen(
        ["bash", "-c", text],
        cwd=folder,
        stdin=subprocess.DEVNULL,
        stdout=subprocess.PIPE,
        stderr=subprocess.STDOUT,
        env={**os.environ, "TMPDIR": folder},
        start_new_session=True,
    )
    try:
        printed, _ = shell.communicate(timeout=LONGEST)
    except subprocess.TimeoutExpired:
        os.killpg(shell.pid, signal.SIGKILL)
        printed, _ = shell.communicate()
    return printed.decode(errors="replace").split(END)


def plain(text):
    """What is compared of a text: not the blanks at the ends of lines, nor empty lines around it."""
    return re.sub(r"[ \t]+$", "", text, flags=re.M).strip("\n")


def work(trial, words):
    count = 0
    for number, name in enumerate(words.files or [os.path.join(TOP, "README.md"), *sorted(glob.glob(os.path.join(TOP, "docs", "*.md")))]):
        folder = trial.path(str(number))
        os.mkdir(folder)
        for shared in SHARED:
            os.symlink(os.path.join(TOP, shared), os.path.join(folder, shared))
        with open(name, encoding="utf-8") as file:
            commands = list(commands_of(file.read()))
        printed = run([command for command, _ in commands], folder)
        for (command, shown), found in zip(commands, printed):
            if plain(found) != plain(shown):
                raise Difference(f"{os.path.relpath(name, TOP)} shows of\n{command}\nwhat isn't so:\n{shown}\nIt prints\n{found}")
        if len(printed) <= len(commands):
            raise Difference(f"{os.path.relpath(name, TOP)}: this doesn't end by itself within {LONGEST} seconds:\n{commands[len(printed) - 1][0]}")
        count += len(commands)
    return f"{count} commands of the documents print what is shown"


def main():
    tried(work, rounds=1, seed=1, arguments=[(["files"], {"nargs": "*"})])


if __name__ == "__main__":
    main()
