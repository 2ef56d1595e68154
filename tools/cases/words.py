"""Words of the program, most of which it must refuse, each with an input."""
import os

KEY = "00" * 16
LONGEST = "aB3f" * 32
# what may follow a command: the first three are accepted, and so is the last
KEY_ENDS = [
    ["--key", KEY],
    ["--key=" + KEY],
    ["--key", LONGEST],
    [],
    ["--key"],
    ["--key", ""],
    ["--key", KEY[:30]],
    ["--key", KEY[:31]],
    ["--key", KEY + "0"],
    ["--key", LONGEST + "00"],
    ["--key", KEY[:-1] + "g"],
    ["--key", KEY, "--key", KEY],
    ["--key", KEY, "more"],
    ["--keys", KEY],
    ["--key", KEY, "--receipts"],
    ["--", "--key", KEY],
    ["--key", KEY, "--"],
]
HOST = ["--key", KEY, "--verifiers", "1", "--shards", "2"]
# what may follow the words that a host needs
HOST_ENDS = [
    [],
    ["--first", "4294967295"],
    ["--counter=16777215"],
    ["--counter", "2"],
    ["--hot", "1000000"],
    ["--receipts"],
    ["--first", "0", "--counter", "7", "--hot", "1"],
    ["--first", "4294967296"],
    ["--first", "-1"],
    ["--first", "+1"],
    ["--first", "01"],
    ["--first", ""],
    ["--first"],
    ["--counter", "0"],
    ["--counter", "16777216"],
    ["--counter", "9" * 5000],
    ["--hot", "0"],
    ["--hot", "1000001"],
    ["--receipts=1"],
    ["--receipts", "--receipts"],
    ["--format", "1"],
    ["--format", "2"],
    ["--format=2", "--absent"],
    ["--format", "0"],
    ["--format", "02"],
    ["--format", "9"],
    ["--absent"],
    ["--absent=1"],
    ["--absent", "--absent"],
    ["--format", "3", "--bits", "128"],
    ["--format", "3", "--bits", "65"],
    ["--format", "2", "--bits", "64"],
    ["--bits", "64"],
    ["--clients", "65536"],
    ["--clients", "1", "--format", "4", "--bits", "128"],
    ["--clients", "0"],
    ["--clients", "65537"],
    ["--clients", "1", "--format", "3"],
    ["--clients", "1", "--absent"],
    ["--format", "4"],
    ["--rolling"],
    ["--rolling", "--hot", "1"],
    ["--rolling=1"],
    ["--logs"],
    ["--every", "1"],
    ["more"],
]
HOST_WORDS = [
    ["--key", KEY, "--shards", "2"],
    ["--key", KEY, "--verifiers", "1"],
    ["--verifiers", "1", "--shards", "2"],
    ["--key", KEY, "--verifiers", "0", "--shards", "2"],
    ["--key", KEY, "--verifiers", "64", "--shards", "1024"],
    ["--key", KEY, "--verifiers", "65", "--shards", "2"],
    ["--key", KEY, "--verifiers", "1", "--shards", "1"],
    ["--key", KEY, "--verifiers", "1", "--shards", "3"],
    ["--key", KEY, "--verifiers", "1", "--shards", "1024"],
    ["--key", KEY, "--verifiers", "1", "--shards", "2048"],
    ["--shards=4", "--verifiers=1", "--key=" + KEY],
] + [HOST + end for end in HOST_ENDS]
LOAD_ENDS = [
    [],
    ["--keys", "65536", "--every", "1"],
    ["--keys", "0"],
    ["--keys", "65537"],
    ["--every", "0"],
    ["--every", "1000001"],
    ["--receipts"],
    ["--format", "2"],
    ["--absent"],
    ["--seed", "1"],
]
LOAD_WORDS = [
    HOST + ["--ops", "3"],
    HOST + ["--seed", "0"],
    HOST + ["--seed", "18446744073709551615", "--ops", "3"],
    HOST + ["--seed", "18446744073709551616", "--ops", "3"],
    HOST + ["--seed", "0", "--ops", "1000001"],
] + [HOST + ["--seed", "0", "--ops", "3"] + end for end in LOAD_ENDS]
SIGN_WORDS = [
    [],
    ["--client", "0"],
    ["--client=65535", "--bits=128"],
    ["--client", "65536"],
    ["--client", "0", "--bits", "32"],
    ["--client", "0", "--receipts"],
]
OTHER_WORDS = [
    ["check", "--key", KEY, "--seal"],
    ["check", "--key", KEY, "--seal", ".", "--receipts"],
    ["resume", "--key", KEY],
    ["resume", "--key", KEY, "--receipts"],
    [],
    [""],
    ["help"],
    ["--help"],
    ["-h"],
    ["--version"],
    ["check", "--help"],
    ["--key", KEY, "check"],
    ["Check", "--key", KEY],
    ["check", "--key", KEY + "\u00e9\u00e9"],
    ["check", "--key", os.fsdecode(b"\xff" * 32)],
]

# a bundle of one epoch, in which nothing is done
BUNDLE = bytes.fromhex("46564231 0001 00000004 00000000 0000ffff 0000 00000002 0808")
SCRIPT = b"0 put 5 6162\n0 get 5\n"
RECEIPT = b"receipt 01\n"
TO_SIGN = b"1 get 5\n7 put 5 6162\n8 del 5\n"

CASES = [([command] + end, BUNDLE) for command in ("check", "audit", "follow", "upgrade") for end in KEY_ENDS]
CASES += [(words, BUNDLE) for words in OTHER_WORDS]
CASES += [(["run"] + words, SCRIPT) for words in HOST_WORDS]
CASES += [(["gen"] + words, b"") for words in LOAD_WORDS]
CASES += [(["accept"] + end, RECEIPT) for end in KEY_ENDS]
CASES += [(["sign", "--key", KEY] + end, TO_SIGN) for end in SIGN_WORDS]
