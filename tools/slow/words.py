"""The words of the program: its commands with their options, and what these may be."""
import re

RANGES = {
    "--verifiers": (1, 64),
    "--shards": (2, 1024),
    "--hot": (1, 1000000),
    "--first": (0, 2**32 - 1),
    "--counter": (1, 16777215),
    "--format": (1, 4),
    "--bits": (64, 128),
    "--clients": (1, 65536),
    "--client": (0, 65535),
    "--seed": (0, 2**64 - 1),
    "--ops": (0, 1000000),
    "--keys": (1, 65536),
    "--every": (1, 1000000),
}
POWERS = ("--shards", "--bits")  # they are powers of two
NEEDED = object()
KEY, RECEIPTS = {"--key": NEEDED}, {"--receipts": False}
HOST = KEY | {"--verifiers": NEEDED, "--shards": NEEDED, "--hot": None, "--first": 0, "--counter": 16777215, "--logs": None}
# the options of each command, with what stands for those that are left out; one that is False takes no value
OPTIONS = {
    "check": KEY | RECEIPTS | {"--seal": None},
    "resume": KEY,
    "audit": KEY,
    "follow": KEY,
    "upgrade": KEY,
    "sign": KEY | {"--client": NEEDED, "--bits": 64},
    "run": HOST | RECEIPTS | {"--format": None, "--bits": 64, "--absent": False, "--clients": 0, "--rolling": False},
    "gen": HOST | {"--seed": NEEDED, "--ops": NEEDED, "--keys": 1024, "--every": 10000},
    "accept": KEY,
}


class Usage(Exception):
    """The words are refused."""


def need(met):
    if not met:
        raise Usage


def found_in(words, names):
    """What follows each option in the words, or is attached to it. Each stands there once at most."""
    found, words = {}, list(words)
    while words:
        word = words.pop(0)
        if word == "--":
            need(not words)
            break
        name, attached, value = word.partition("=")
        need(name in names and name not in found)
        if names[name] is False:
            need(not attached)
            value = True
        elif not attached:
            need(words and (words[0] == "-" or not words[0].startswith("-")))
            value = words.pop(0)
        found[name] = value
    return found


def value_of(name, text):
    """What the text of an option says."""
    if name == "--key":
        need(re.fullmatch("([0-9a-fA-F]{2}){16,64}", text))
        return bytes.fromhex(text)
    if name not in RANGES:
        return text  # a path, or that a flag is there
    need(re.fullmatch("0|[1-9][0-9]{0,19}", text))
    number, (least, most) = int(text), RANGES[name]
    need(least <= number <= most and (name not in POWERS or number & (number - 1) == 0))
    return number


def options_of(words):
    """The options of a command, by name."""
    need(words and words[0] in OPTIONS)
    names = OPTIONS[words[0]]
    given = {name: value_of(name, text) for name, text in found_in(words[1:], names).items()}
    options = names | given
    need(NEEDED not in options.values())
    need(not {"--seal", "--receipts"} <= set(given))
    if words[0] == "run":
        options["--format"] = version_of(given)
    return options


def version_of(given):
    """The version that a run is to write, by the options that are given to it."""
    signed = "--clients" in given
    version = given.get("--format", 4 if signed else 1)
    need(signed == (version == 4) and not (signed and "--absent" in given))
    need("--bits" not in given or version > 2)
    need(not {"--rolling", "--hot"} <= set(given))
    return version
