#!/usr/bin/env python3
"""Reads each line of standard input as JSON and prints it again in compact form: a yardstick for measure.py."""

import json
import sys


def main():
    encode = json.JSONEncoder(separators=(",", ":"), ensure_ascii=False).encode
    decode = json.JSONDecoder().decode
    for line in sys.stdin:
        sys.stdout.write(encode(decode(line)) + "\n")


if __name__ == "__main__":
    main()
