#!/usr/bin/env python3
"""Whether the manual page and the completions say what the help texts of tests/help say.

    tests/manual.py

The page has each command with its sentence, each flag and each argument with its text, each request and fault, and
no command or flag besides, and the sections that people look for; man finds nothing wrong with it. Each help text ends
with where the page is found. bash, fish and zsh offer just the commands, and for each command just its flags. The last
line is 'N passed, M failed'.
"""
import glob
import os
import re
import subprocess
import sys

import skip

TOP = os.path.join(os.path.dirname(os.path.abspath(__file__)), "..")
PAGE = os.path.join(TOP, "man", "typetool.1")
passed, failed = 0, 0


def check(name, got, wanted):
    global passed, failed
    if got == wanted:
        passed += 1
    else:
        failed += 1
        print(f"FAILED {name}: {got}, wanted {wanted}")


def read(path):
    with open(path, encoding="utf-8") as file:
        return file.read()


def helps():
    """The help text of each command."""
    paths = sorted(glob.glob(os.path.join(TOP, "tests", "help", "*.txt")))
    texts = {os.path.basename(path)[:-4]: read(path) for path in paths}
    texts.pop("typetool")
    return texts


def spoken(text):
    """Words as a page has them once it is laid out, without roff's requests and escapes."""
    text = re.sub(r"\\f.|\\&", "", text.replace(r"\-", "-").replace(r"\~", " ").replace(r"\(aq", "'"))
    text = re.sub(r"^\.(TP|PP|SH|YS|SY|BR|BI|IR|B|I|OP) ?", "", text, flags=re.MULTILINE)
    return " ".join(text.split())


def flags_of(text):
    return set(re.findall(r"^ +(?:-[hV], )?(--[a-z]+)", text, flags=re.MULTILINE))


def front():
    """The flags and the commands of the help text of the whole program."""
    told = subprocess.run([os.path.join(TOP, "tests", "front.sh")], capture_output=True, text=True, check=True)
    text = told.stdout
    listed = re.search(r"^Commands:\n(.*?)^$", text, flags=re.MULTILINE | re.DOTALL)[1]
    return flags_of(text), set(re.findall(r"^  ([a-z]+) ", listed, flags=re.MULTILINE))


def sentences(text):
    """What a help text says of its command, and of each argument and flag."""
    yield text.split("\n", 1)[0]
    for line in re.findall(r"^ +(?:<|\[|-).*$", text, flags=re.MULTILINE):
        yield re.split(r"  +", line.strip(), maxsplit=1)[1]


def requests(text):
    """The request words and faults of a help text."""
    forms = r"\b(?:insert AT|delete FROM|replace AT|retime AT|cap SECONDS)|^E[1-8] .*$"
    return set(re.findall(forms, text, flags=re.MULTILINE))


def in_page():
    page = spoken(read(PAGE))
    texts, (front_flags, commands) = helps(), front()
    for path in glob.glob(os.path.join(TOP, "tests", "help", "*.txt")):
        check(f"the end of {os.path.basename(path)}", read(path).split("\n")[-2:], ["The long form: man typetool", ""])
    for command, text in texts.items():
        missing = [sentence for sentence in sentences(text) if sentence.rstrip(".)") not in page]
        missing += [words for words in requests(text) if " ".join(words.split()) not in page]
        check(f"the page on {command}", missing, [])
    flags = front_flags.union(*map(flags_of, texts.values()))
    check("the page's flags", set(re.findall(r"--[a-z]+", page)) - {"--log", "--logging"}, flags)
    sections = re.findall(r"^\.SH (.*)$", read(PAGE), flags=re.MULTILINE)
    wanted = ["EXIT STATUS", "FILES", "EXAMPLES", "SEE ALSO"]
    check("the page's sections", [name for name in sections if name in wanted], wanted)
    also = re.findall(r"^\.BR (\w+) \(1\)", read(PAGE).split(".SH SEE ALSO\n")[1], flags=re.MULTILINE)
    check("what the page names besides", also, ["script", "scriptreplay", "asciinema"])
    listed = re.search(r"^\.SH COMMANDS\n(.*?)^\.SH", read(PAGE), flags=re.MULTILINE | re.DOTALL)[1]
    check("the page's commands", set(re.findall(r"^\.TP\n\.B ([a-z]+)$", listed, flags=re.MULTILINE)), commands)


def warnings():
    if skip.lacks("man", "man's warnings"):
        return
    words = ["man", "--warnings", "-E", "UTF-8", "-l", "-Tutf8", "-Z", PAGE]
    told = subprocess.run(words, capture_output=True, text=True, env={**os.environ, "LC_ALL": "C.UTF-8"})
    check("man's warnings", (told.returncode, told.stderr), (0, ""))


# How a shell is asked for what it offers behind some words; each prints a word a line. The help is that of tests/help.
BASH = """
typetool() { if [ -n "$2" ]; then cat "tests/help/$2.txt"; else tests/front.sh; fi; }
source completions/typetool.bash
COMP_WORDS=("$@"); COMP_CWORD=$(($# - 1)); _typetool
printf '%s\\n' "${COMPREPLY[@]}"
"""
FISH = """
function typetool
    if test (count $argv) -gt 1; cat tests/help/$argv[2].txt; else; tests/front.sh; end
end
source completions/typetool.fish
complete --do-complete (string join ' ' -- $argv)
"""
# zsh's own functions need a terminal: these print what they are given.
ZSH = """
typetool() { if [[ -n $2 ]]; then cat "tests/help/$2.txt"; else tests/front.sh; fi }
_describe() { print -l -- ${(P)2} }
_arguments() { if [[ $1 == -C ]]; then state=$asked[1] line=($asked[2]); else print -l -- "$@"; fi }
asked=("$@")
complete_words() { source completions/_typetool }
complete_words
"""


def offered(shell, *words):
    script = {"bash": ["bash", "-c", BASH, "bash"], "fish": ["fish", "--no-config", "-c", FISH]}[shell]
    told = subprocess.run([*script, *words], cwd=TOP, capture_output=True, text=True)
    return {line.split("\t")[0] for line in told.stdout.splitlines() if line}


def in_shells():
    texts, (front_flags, commands) = helps(), front()
    shells = [shell for shell in ("bash", "fish") if not skip.lacks(shell, f"what {shell} completes")]
    for shell in shells:
        check(f"{shell}: commands", {word for word in offered(shell, "typetool", "") if word[0] != "-"}, commands)
        check(f"{shell}: flags", offered(shell, "typetool", "--"), front_flags)
        check(f"{shell}: what help is for", offered(shell, "typetool", "help", ""), set(texts))
        for command, text in texts.items():
            check(f"{shell}: {command}", offered(shell, "typetool", command, "--"), flags_of(text))
        check(f"{shell}: profiles", offered(shell, "typetool", "screen", "--profile", "vt"), {"vt100", "vt102"})
    # bash cuts words at =, fish doesn't.
    for words, wanted in ((["="], {"vt100", "vt102", "xterm", "auto"}), (["=", "vt"], {"vt100", "vt102"})):
        got = offered("bash", "typetool", "find", "--profile", *words)
        check(f"bash: --profile{''.join(words)}", got, wanted)
    for command in (command for command, text in texts.items() if "--profile" in flags_of(text)):
        of_today = offered("bash", "typetool", command, "--profile", "")
        check(f"bash: profiles of {command}", of_today, {"vt100", "vt102", "xterm", "auto"})
    check("bash: sizes", offered("bash", "typetool", "page", "--size", "1"), {"100x30", "120x40", "132x43", "160x50"})
    check("bash: --size=8", offered("bash", "typetool", "page", "--size", "=", "8"), {"80x24"})
    if "fish" in shells:
        check("fish: sizes", offered("fish", "typetool", "page", "--size", "8"), {"80x24"})
        check("fish: --size=8", offered("fish", "typetool", "page", "--size=8"), {"--size=80x24"})
        wanted = {"--profile=vt100", "--profile=vt102"}
        check("fish: --profile=", offered("fish", "typetool", "screen", "--profile=vt"), wanted)
    check("bash: files", "README.md" in offered("bash", "typetool", "info", "READ"), True)
    check("bash: no moments", offered("bash", "typetool", "due", "--at", ""), set())


def told_to_zsh(*asked):
    """What zsh's functions are given where so much of a line was read."""
    told = subprocess.run(["zsh", "-f", "-c", ZSH, "zsh", *asked], cwd=TOP, capture_output=True, text=True)
    return told.stdout + told.stderr


def in_zsh():
    text, commands = read(os.path.join(TOP, "completions", "_typetool")), front()[1]
    check("zsh: sizes", "--size=[columns, x and lines, with --profile xterm or auto]:size:(80x24 " in text, True)
    if skip.lacks("zsh", "what zsh completes"):
        return
    told = subprocess.run(["zsh", "-n", "completions/_typetool"], cwd=TOP, capture_output=True, text=True)
    check("zsh: reads", (told.returncode, told.stderr), (0, ""))
    for asked in (["command"], ["argument", "help"]):
        described = dict(line.split(":", 1) for line in told_to_zsh(*asked).splitlines())
        check("zsh: commands", set(described), commands)
        check("zsh: what a command does", [name for name, said in described.items() if not said], [])
    for command, words in helps().items():
        told = told_to_zsh("argument", command)
        check(f"zsh: {command}", set(re.findall(r"--[a-z]+", told)), flags_of(words))
        files = re.findall(r"^  [<[]([A-Z]+)[]>] ", words, flags=re.MULTILINE)
        places = re.findall(r"^(\d+):", told, flags=re.MULTILINE)
        check(f"zsh: the words of {command}", places, [str(number + 1) for number in range(len(files))])


in_page()
warnings()
in_shells()
in_zsh()
sys.exit(skip.end(passed, failed))
