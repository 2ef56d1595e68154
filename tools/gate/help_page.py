"""Makes the man page and the completion of `fastver` from its page of help, or checks that they are as made.

usage: tools/run gate.help_page write|check

Run at the top of the repository. tools/share/fastver.txt is the page of help, as `./fastver help` shows it: a title, and sections
with a head in capitals. A line with two blanks before it is an item or a text, which may go on in the next lines; one with six says
what the item above it is. `check` also looks that the commands and options are those of README and of the slow
program, but for what the built one hasn't yet, that the statuses are those of docs/FORMATS.md, and that tools/share/version and
README name the logic of the kit that is installed, where one is: kits with one logic prove the same. It writes a line for what is
otherwise, and fails where anything is.
"""
import re
import shutil
import subprocess
import sys

from tools.cases.later import LATER
from tools.gate.sources import read
from tools.slow.words import OPTIONS

PAGE, VERSION = "tools/share/fastver.txt", "tools/share/version"
MAN, COMPLETION = "tools/share/fastver.1", "tools/share/fastver.bash"


def sections(page):
    """The sections of a page, each its items with what is said of them. A text has nothing said of it."""
    found, items, goes_on = {}, [], False
    for line in page.splitlines()[1:]:
        text = line.strip()
        if re.match(r"[A-Z]", line):
            items = found.setdefault(line, [])
        elif line.startswith("      "):
            items[-1][1].append(text)
        elif text and goes_on:
            items[-1] = (f"{items[-1][0]} {text}", items[-1][1])
        elif text:
            items.append((text, []))
        goes_on = bool(text) and not re.match(r"[A-Z]|      ", line)
    return found


def commands(page):
    """The options of each command, as its line names them."""
    items = [item.split() for item, _ in sections(page)["COMMANDS"]]
    return {name: re.findall(r"--\w+", " ".join(words)) for name, *words in items if re.fullmatch("[a-z]+", name)}


def roff(text):
    """A line of a man page."""
    text = text.replace("\\", "\\e").replace("-", "\\-").replace("`", "")
    return "\\&" + text if text.startswith((".", "'")) else text


def man_of(page):
    title = page.splitlines()[0]
    lines = ['.\\" made by tools/run gate.help_page write', '.TH FASTVER 1 "" "" ""', ".SH NAME", roff(title)]
    for head, items in sections(page).items():
        lines.append(f".SH {'SYNOPSIS' if head == 'USAGE' else head}")
        for item, said in items:
            lines += [".TP", f".B {roff(item)}", *map(roff, said)] if said else [".PP", roff(item)]
    return "\n".join(lines) + "\n"


COMPLETION_HEAD = """# Completes the words of fastver: source tools/share/fastver.bash
# shellcheck shell=bash
# made by tools/run gate.help_page write
_fastver() {
  local word=${COMP_WORDS[COMP_CWORD]} options
  COMPREPLY=()
  if [ "$COMP_CWORD" -eq 1 ]; then
    mapfile -t COMPREPLY < <(compgen -W '%s' -- "$word")
    return
  fi
  case ${COMP_WORDS[COMP_CWORD - 1]} in
    %s)
      mapfile -t COMPREPLY < <(compgen -f -- "$word")
      compopt -o filenames
      return
      ;;
    %s) return ;;
  esac
  case ${COMP_WORDS[1]} in
"""
COMPLETION_END = """    *) options= ;;
  esac
  mapfile -t COMPREPLY < <(compgen -W "$options" -- "$word")
}
complete -F _fastver fastver
"""


def completion_of(page):
    """A completion for bash: commands, the options of each, and a path behind an option that takes one."""
    words = [word for item, _ in sections(page)["COMMANDS"] for word in re.findall(r"^[a-z]+|--help|--version", item)]
    valued = [item.split() for item, _ in sections(page)["OPTIONS"] if " " in item]
    paths, others = ["|".join(name for name, value in valued if (value == "PATH") == is_path) for is_path in (True, False)]
    cases = "".join(f"    {name}) options='{' '.join(options)}' ;;\n" for name, options in commands(page).items() if options)
    return COMPLETION_HEAD % (" ".join(words), paths, others) + cases + COMPLETION_END


def logic_in(text):
    """The sum of the logic that a text names, on which a proof rests."""
    return next(iter(re.findall(r"\blogic ([0-9a-f]{16})\b", text)), None)


def faults(page, made):
    """What is otherwise than it is to be."""
    for file, text in made.items():
        if read(file) != text:
            yield f"{file}: it is not as made of {PAGE}"
    named = {name: set(options) for name, options in commands(page).items() if options}
    if named != {name: set(options) - set(LATER) for name, options in OPTIONS.items() if name not in LATER}:
        yield f"{PAGE}: its commands and options are not those of tools/slow/words.py that the program has"
    readme = [" ".join(line.split()[1:]) for line in read("README.md").splitlines() if line.startswith("    fastver ")]
    if readme != [item for item, _ in sections(page)["COMMANDS"] if item.split()[0] in named]:
        yield f"README.md: its commands are not those of {PAGE}"
    ends = {end for item, _ in sections(page)["STATUS"] for end in item.split(", ") if " " in end}
    if ends != {" ".join(row) for row in re.findall(r"(?:^\| |, )(\d+) ([a-z ]+?)(?= \||, )", read("docs/FORMATS.md"), re.M)}:
        yield f"docs/FORMATS.md: its statuses are not those of {PAGE}"
    said = {item.split()[0] for item, _ in sections(page)["OPTIONS"]}
    if said != set().union(*named.values()):
        yield f"{PAGE}: the options of its commands are not those of its section of options"
    logic = logic_in(read(VERSION))
    if shutil.which("rt") and logic_in(subprocess.run(["rt", "version"], capture_output=True, text=True, check=False).stdout) != logic:
        yield f"{VERSION}: it names another logic than `rt version`"
    if logic_in(read("README.md")) != logic:
        yield f"README.md: it names another logic than {VERSION}"


def main():
    if sys.argv[1:] not in (["write"], ["check"]):
        raise SystemExit("usage: tools/run gate.help_page write|check")
    page = read(PAGE)
    made = {MAN: man_of(page), COMPLETION: completion_of(page)}
    if sys.argv[1] == "write":
        for file, text in made.items():
            with open(file, "w", encoding="utf-8") as out:
                out.write(text)
    found = list(faults(page, made))
    print(*found, sep="\n", end="\n" if found else "")
    return 1 if found else 0


if __name__ == "__main__":
    sys.exit(main())
