#!/usr/bin/env python3
"""The man page and the completions of `recall`, made of its help, so that each option is told once: in the program.

    share/pages.py PROGRAM FOLDER     writes them below FOLDER, as a system has them below /usr/share

`tests/pages.sh` makes them anew and compares them with those of the repository.
"""
import os
import re
import subprocess
import sys


class Command:
    """What `--help` says of the program, or of one of its commands."""

    def __init__(self, text):
        self.about = []
        self.usage = ""
        self.commands = []
        self.arguments = []
        self.options = []
        self.page = []
        part = "about"
        for line in text.splitlines():
            if line.startswith("Usage: "):
                self.usage = line[len("Usage: ") :]
                part = "usage"
            elif line in ("Commands:", "Arguments:", "Options:"):
                part = line[:-1].lower()
            elif part in ("commands", "arguments", "options") and not line.strip():
                part = "between"
            elif part == "about":
                self.about.append(line)
            elif part in ("commands", "arguments", "options"):
                self.entry(getattr(self, part), line)
            elif part == "between" and line.strip():
                part = "page"
                self.page.append(line)
            elif part == "page":
                self.page.append(line)
        self.about = " ".join(line.strip() for line in self.about if line.strip())

    @staticmethod
    def entry(entries, line):
        """A line of a list, or of the text of its last entry."""
        found = re.match(r"^ {2,6}(\S.*?)(?: {2,}(.*))?$", line)
        if found and not line.startswith(" " * 10):
            entries.append([found.group(1), found.group(2) or ""])
        elif entries:
            entries[-1][1] = (entries[-1][1] + " " + line.strip()).strip()


def words_of(option):
    """The spellings of an option, as `-h` and `--help`, and whether it takes a value."""
    return re.findall(r"--?[a-z][a-z-]*", option), "<" in option


def read(program):
    def help_of(*words):
        return subprocess.run([program, *words, "--help"], capture_output=True, text=True, check=True).stdout

    whole = Command(help_of())
    names = [name for name, _ in whole.commands if name != "help"]
    return whole, {name: Command(help_of(name)) for name in names}


def escaped(text):
    """A text of roff. A line that begins with a point or a quote would be a request."""
    text = text.replace("\\", "\\e").replace("-", "\\-")
    return "\\&" + text if text[:1] in ".'" else text


def man(whole, commands, version):
    lines = [f'.TH RECALL 1 "" "{version}"', ".SH NAME", f"recall \\- {escaped(whole.about[0].lower() + whole.about[1:])}"]
    lines += [".SH SYNOPSIS", f".B {escaped(whole.usage)}", ".SH DESCRIPTION", ".nf"]
    lines += [escaped(line) for line in whole.page] + [".fi", ".SH COMMANDS"]
    for name, command in commands.items():
        lines += [f".SS {escaped(command.usage)}", escaped(command.about)]
        for entry, text in command.arguments + command.options:
            lines += [".TP", f"\\fB{escaped(entry)}\\fR", escaped(text)]
        lines += [".PP", ".nf"] + [escaped(line) for line in command.page] + [".fi"]
    return "\n".join(lines) + "\n"


def bash(commands):
    lines = [
        "# Completions of recall for bash, made by share/pages.py.",
        "_recall() {",
        '    local word=${COMP_WORDS[COMP_CWORD]} options=',
        '    if [ "$COMP_CWORD" = 1 ]; then',
        f'        COMPREPLY=($(compgen -W "{" ".join(commands)} help --help --version" -- "$word"))',
        "        return",
        "    fi",
        '    case "${COMP_WORDS[1]}" in',
    ]
    for name, command in commands.items():
        words = [word for option, _ in command.options for word in words_of(option)[0] if word.startswith("--")]
        lines += [f"    {name}) options=\"{' '.join(words)}\" ;;"]
    lines += [
        "    esac",
        '    case "$word" in',
        '    -*) COMPREPLY=($(compgen -W "$options" -- "$word")) ;;',
        '    *) COMPREPLY=($(compgen -f -- "$word")) ;;',
        "    esac",
        "}",
        "complete -o filenames -F _recall recall",
    ]
    return "\n".join(lines) + "\n"


def quoted(text):
    return text.replace("'", "'\\''").replace("[", "\\[").replace("]", "\\]").replace(":", "\\:")


def zsh(commands):
    lines = ["#compdef recall", "# Completions of recall for zsh, made by share/pages.py.", "local -a names", "names=("]
    lines += [f"    '{name}:{quoted(command.about)}'" for name, command in commands.items()]
    lines += [")", "_arguments -C '1:command:->name' '*::argument:->rest'", 'case "$state" in', "name) _describe command names ;;", "rest)", '    case "${words[1]}" in']
    for name, command in commands.items():
        rules = []
        for option, text in command.options:
            spelled, valued = words_of(option)
            rules += [f"'{word}[{quoted(text)}]{':value:' if valued else ''}'" for word in spelled if word.startswith("--")]
        lines += [f"    {name}) _arguments {' '.join(rules)} '*:file:_files' ;;"]
    lines += ["    esac ;;", "esac"]
    return "\n".join(lines) + "\n"


def fish(commands):
    lines = ["# Completions of recall for fish, made by share/pages.py."]
    for name, command in commands.items():
        about = command.about.replace("'", "\\'")
        lines += [f"complete -c recall -n __fish_use_subcommand -f -a {name} -d '{about}'"]
        for option, text in command.options:
            spelled, valued = words_of(option)
            told = text.replace("'", "\\'")
            for word in spelled:
                if word.startswith("--"):
                    lines += [f"complete -c recall -n '__fish_seen_subcommand_from {name}' -l {word[2:]}{' -x' if valued else ''} -d '{told}'"]
    return "\n".join(lines) + "\n"


def main():
    program, folder = sys.argv[1:]
    whole, commands = read(program)
    version = subprocess.run([program, "--version"], capture_output=True, text=True, check=True).stdout.strip()
    pages = {
        "man/man1/recall.1": man(whole, commands, version),
        "bash-completion/completions/recall": bash(commands),
        "zsh/site-functions/_recall": zsh(commands),
        "fish/vendor_completions.d/recall.fish": fish(commands),
    }
    for path, text in pages.items():
        path = os.path.join(folder, path)
        os.makedirs(os.path.dirname(path), exist_ok=True)
        with open(path, "w") as page:
            page.write(text)


if __name__ == "__main__":
    main()
