"""Runs a tool by its name: tools/run NAME WORD..

With no name, or `--help`, it says which tools there are, each with the line at the head of its file.
"""
import ast
import importlib
import os
import sys

TOP = os.path.join(os.path.dirname(os.path.abspath(__file__)), "..")
FOLDERS = {"slow": "tools.slow", "cases": "tools.cases", "fuzzer": "tools.fuzzer", "gate": "tools.gate", "bench": "bench"}


def found():
    """The name of each tool, with the line that says what it does. A file is a tool where it has a function `main`."""
    for folder, package in FOLDERS.items():
        at = os.path.join(TOP, *package.split("."))
        for file in sorted(os.listdir(at)):
            if not file.endswith(".py"):
                continue
            with open(os.path.join(at, file), encoding="utf-8") as text:
                tree = ast.parse(text.read())
            if any(isinstance(part, ast.FunctionDef) and part.name == "main" for part in tree.body):
                yield f"{folder}.{file.removesuffix('.py')}", ast.get_docstring(tree).splitlines()[0]


def leave_path():
    """What a tool starts finds no modules here: the path that `tools/run` set is put back."""
    _, _, before = os.environ.pop("PYTHONPATH", "").partition(os.pathsep)
    if before:
        os.environ["PYTHONPATH"] = before


def main():
    leave_path()
    name, *words = sys.argv[1:] or ["--help"]
    tools = dict(found())
    if name in tools:
        folder, _, file = name.partition(".")
        sys.argv = [f"tools/run {name}", *words]
        return importlib.import_module(f"{FOLDERS[folder]}.{file}").main()
    asked = name in ("help", "--help", "-h")
    told = [f"{tool:{max(map(len, tools))}}  {line}" for tool, line in tools.items()]
    print("usage: tools/run NAME WORD..", *told, sep="\n", file=sys.stdout if asked else sys.stderr)
    return 0 if asked else 2


if __name__ == "__main__":
    sys.exit(main())
