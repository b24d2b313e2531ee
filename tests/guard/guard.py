#!/usr/bin/env python3
"""guard.py GUARD KEYRETAIND KEYRETAIN plain | sanitized [WORD]: tries the guard over real sockets, or by the functions
with this word in their names. As root the checks that need other uids are made with a child that changes its uid,
connects and hands the socket back: the kernel remembers who connected. Without root those are skipped. A sanitized
guard runs without its filter of system calls."""
import shutil
import sys

import behind
import claims
import limits
import processes
import stage
import streams
import told


def run_all(function):
    if not stage.attempt(function) or not stage.attempt(end_all):
        stage.kill_all()


def end_all():
    for run in list(stage.ALL):
        run.end()


def main():
    only = sys.argv[5] if len(sys.argv) > 5 else ""
    try:
        for part in (claims, streams, told, limits, behind, processes):
            for name, function in list(vars(part).items()):
                if name.startswith("try_") and only in name:
                    run_all(function)
    finally:
        stage.kill_all()
        shutil.rmtree(stage.TMP)
    stage.conclude()


main()
