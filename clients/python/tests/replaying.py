#!/usr/bin/env python3
"""Stands in for the program in tests: replies what the file in $REPLIES says, a reply for each command that it reads.

A reply is a line, followed by the lines of TEXT and CERT. The line EXIT N ends the program at once with that status.
"""
import os
import sys


def body_end(words):
    if len(words) > 1 and words[1] == "LOAD":
        return "ENDATA"
    return "END" if len(words) > 1 and words[1] == "CHECK" else None


def main():
    with open(os.environ["REPLIES"], encoding="latin-1") as file:
        replies = file.read().splitlines()
    while replies:
        first = sys.stdin.readline()
        if not first:
            return 0
        end = body_end(first.split())
        while end and sys.stdin.readline().split()[:1] != [end]:
            pass
        reply = replies.pop(0).split(" ")
        if reply[0] == "EXIT":
            print("lpd: out of order", file=sys.stderr)
            return int(reply[1])
        count = int(reply[2]) if reply[1:2] in (["TEXT"], ["CERT"], ["WIDE"]) and reply[2:] and reply[2].isdigit() else 0
        print("\n".join([" ".join(reply), *replies[:count]]), flush=True)
        del replies[:count]
    sys.stdin.read()
    return 0


if __name__ == "__main__":
    sys.exit(main())
