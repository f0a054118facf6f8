#!/usr/bin/env python3
"""A stand-in for the program, for what no real one can be made to do. The variable STAND_IN says, as JSON, what comes after so
many replies (`after`, 1 where it is missing: that of the `info` with which an index is opened):

    status, text       it ends with this status, and says this on standard error
    signal             it ends by this signal
    said               it says this in place of the reply
    waits              it waits for ever
    noise              it says so many bytes on standard error, and goes on

With `pid` it first writes its process's number to the file of that name. Its replies before are those of an index of nothing.
"""

import json
import os
import signal
import sys
import time

FACTS = "objects 1\nfirst 0\nlast 99\nperiod 10\ncell 1\ntick 1\nheight 1\nalphabet 0\nrules 0\nlog 0\ndepth 0\nok 11\n"


def end(told):
    if "noise" in told:
        os.write(2, b"x" * told["noise"])
        return
    if "waits" in told:
        time.sleep(600)
    if "signal" in told:
        os.write(2, told.get("text", "").encode())
        signal.signal(told["signal"], signal.SIG_DFL)
        os.kill(os.getpid(), told["signal"])
    if "said" in told:
        os.write(1, told["said"].encode())
        time.sleep(600)
    os.write(2, told["text"].encode())
    os._exit(told["status"])


def main():
    told, count = json.loads(os.environ["STAND_IN"]), 0
    if "pid" in told:
        with open(told["pid"], "w", encoding="ascii") as file:
            file.write(str(os.getpid()))
    if told.get("after", 1) == 0:
        end(told)
    for line in sys.stdin:
        if count == told.get("after", 1):
            end(told)
        os.write(1, (FACTS if line == "info\n" else "ok 0\n").encode())
        count += 1


if __name__ == "__main__":
    main()
