"""The tools of the repository, by folders: the slow program, cases, the fuzzer, and the gate's checks and lists."""
