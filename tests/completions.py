"""Tests of the completions for shells and of where `make install` puts things: the manual page says which commands and
options there are."""
from __future__ import annotations

import os
import pathlib
import re
import tempfile
from collections.abc import Callable, Iterator, Sequence

from machine import path_of, peer, scratch
from support import REPOSITORY

MANUAL = REPOSITORY / "docs" / "topk.1"
FOLDER = REPOSITORY / "docs" / "completions"

# Asks bash what it offers behind `topk` and the words of the command line, of which the last one isn't finished.
BASH = 'source "$0"; COMP_WORDS=(topk "$@"); COMP_CWORD=$#; _topk; printf "%s\\n" "${COMPREPLY[@]}"'

# The helpers of zsh's own completions write what they are given, in place of offering it.
ZSH = """
_describe() { print -l -- ${(P)@[-1]} }
_arguments() { print -l -- "$@" }
words=(topk "$@"); CURRENT=$#words; source $0
"""

FISH = "source $argv[1]; complete -C \"topk $argv[2..-1]\""


def manual() -> dict[str, set[str]]:
    """The options of each command by the manual page: those in its synopsis, and those of `run` where that says
    OPTIONS."""
    text = MANUAL.read_text(encoding="utf-8").replace("\\-", "-")
    synopsis = text.split(".SH SYNOPSIS")[1].split(".SH DESCRIPTION")[0]
    described = text.split(".SH COMMANDS")[1].split(".SH FORMATS")[0]
    running = set(re.findall(r"^\.BI (--\w+) ", described, re.MULTILINE))
    options = {}
    for part in synopsis.split(".br"):
        command = re.findall(r"^\.B topk (\w+)", part, re.MULTILINE)[0]
        options[command] = set(re.findall(r"--\w+", part)) | (running if "OPTIONS" in part else set())
    return options


def commands_of_manual() -> set[str]:
    """The commands that the manual page describes one by one."""
    described = MANUAL.read_text(encoding="utf-8").split(".SH COMMANDS")[1].split(".PP")[0]
    return set(re.findall(r"^\.TP\n\.B (\w+)$", described, re.MULTILINE))


def offered(words: Sequence[str], *line: str) -> set[str]:
    """What a shell offers at the end of a command line: the first words of the lines that it writes, up to a colon or
    an equals sign."""
    with scratch() as place:  # A shell that has no home of its own may say so, or write there.
        own = dict(os.environ, HOME=place, XDG_CONFIG_HOME=place, XDG_DATA_HOME=place, TERM="dumb")
        done = peer([*words, *line], text=True, env=own)
    if done.returncode != 0 or done.stderr:
        raise AssertionError(f"ended with {done.returncode}: {done.stderr[:300]}")
    return {re.split(r"[:=\t]", it)[0] for it in done.stdout.splitlines() if it and not it[0].isdigit()}


def wrong_offers(words: Sequence[str]) -> str | None:
    """The first difference of what a shell offers from the manual page, or None."""
    wanted = manual()
    if set(wanted) != commands_of_manual():
        described = sorted(commands_of_manual())
        return f"the manual page has {sorted(wanted)} in its synopsis and describes {described}"
    given = offered(words, "")
    if given != set(wanted):
        return f"offers the commands {sorted(given)} in place of {sorted(wanted)}"
    for command, options in wanted.items():
        found = {it for it in offered(words, command, "--") if it.startswith("-")}
        if found != options:
            return f"offers the options {sorted(found)} of {command} in place of {sorted(options)}"
    return None


def bash_completion(_: str) -> str | None:
    """What bash offers."""
    return wrong_offers([path_of("bash"), "-c", BASH, str(FOLDER / "topk.bash")])


def zsh_completion(_: str) -> str | None:
    """What zsh offers."""
    return wrong_offers([path_of("zsh"), "-f", "-c", ZSH, str(FOLDER / "_topk")])


def fish_completion(_: str) -> str | None:
    """What fish offers."""
    return wrong_offers([path_of("fish"), "--no-config", "-c", FISH, str(FOLDER / "topk.fish")])


# How a command and an option stand in each file.
FORMS = {
    "topk.bash": (r"-W '([a-z ]+)'", r"--([a-z]+)"),
    "_topk": (r"^ +'(\w+):[a-z]", r"--([a-z]+)="),
    "topk.fish": (r" -a (\w+)", r" -l ([a-z]+)"),
}


def completion_texts(_: str) -> str | None:
    """Where a shell is missing too: each command and each option of the manual page stands in each file, and no
    other."""
    commands, options = set(manual()), set().union(*manual().values())
    for name, (command, option) in FORMS.items():
        text = (FOLDER / name).read_text(encoding="utf-8")
        found = {word for it in re.findall(command, text, re.MULTILINE) for word in it.split()}
        if found != commands:
            return f"{name} has the commands {sorted(found)} in place of {sorted(commands)}"
        found = {f"--{it}" for it in re.findall(option, text)}
        if found != options:
            return f"{name} has the options {sorted(found)} in place of {sorted(options)}"
    return None


def bash_options_once(_: str) -> str | None:
    """An option is offered once, nothing where its number is due, and files behind the word `--`."""
    words = [path_of("bash"), "-c", BASH, str(FOLDER / "topk.bash")]
    found = offered(words, "make", "--start", "7", "--")
    if found != {"--count", "--lists"}:
        return f"offers {sorted(found)} behind --start"
    found = offered(words, "run", "--workers", "")
    if found != set():
        return f"offers {sorted(found)} in place of a number"
    found = {pathlib.Path(it).name for it in offered(words, "run", "--", f"{FOLDER}/")}
    same = found == {it.name for it in FOLDER.iterdir()}
    return None if same else f"offers {sorted(found)} in place of files behind --"


def installed(program: str) -> str | None:
    """`make install` puts each file in its place below DESTDIR and PREFIX, and `make uninstall` takes each away."""
    make, _ = path_of("make"), path_of("install")
    wanted = {"bin/topk", "share/man/man1/topk.1", "share/bash-completion/completions/topk",
              "share/zsh/site-functions/_topk", "share/fish/vendor_completions.d/topk.fish"}
    with tempfile.TemporaryDirectory() as place:
        words = [f"DESTDIR={place}", "PREFIX=/opt/top k", f"PROGRAM={program}"]
        prefix = pathlib.Path(place) / "opt" / "top k"
        for goal, files in (("install", wanted), ("uninstall", set())):
            done = peer([make, "-s", "-C", str(REPOSITORY), goal, *words], text=True)
            if done.returncode != 0:
                return f"make {goal} ended with {done.returncode}: {done.stderr[:300]}"
            found = {str(it.relative_to(prefix)) for it in prefix.rglob("*") if it.is_file()}
            if found != files:
                return f"make {goal} leaves {sorted(found)} in place of {sorted(files)}"
            if goal == "install" and peer([prefix / "bin" / "topk"]).returncode != 2:
                return "the installed program doesn't run"
    return None


def tests() -> Iterator[tuple[str, Callable[[str], str | None]]]:
    """Each test with its name."""
    for test in (completion_texts, bash_completion, bash_options_once, zsh_completion, fish_completion, installed):
        yield test.__name__, test
