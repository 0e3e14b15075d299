#!/usr/bin/env python3
"""Writes a processed profile to the standard output: 60,000 stack rows, each standing on the one before, and 200,000 samples,
a microsecond apart. With a number, each sample's row is that many rows on."""
import sys

ROWS = 60_000
SAMPLES = 200_000


def milliseconds(microseconds):
    """The shortest spelling of a time in milliseconds."""
    return f"{microseconds // 1000}.{microseconds % 1000:03}".rstrip("0").rstrip(".")


def listed(values):
    return ",".join(map(str, values))


def main():
    shift = int(sys.argv[1]) if len(sys.argv) > 1 else 0
    sys.stdout.write(
        '{"meta":{"preprocessedProfileVersion":0},"libs":[],"threads":[{"name":"gen","stringArray":['
        + ",".join(f'"f{func}"' for func in range(8))
        + f'],"funcTable":{{"name":[{listed(range(8))}]}},"frameTable":{{"func":[{listed(range(8))}]}}'
        + f',"stackTable":{{"frame":[{listed(row % 8 for row in range(ROWS))}]'
        + f',"prefix":[{listed(["null", *range(ROWS - 1)])}]}}'
        + f',"samples":{{"stack":[{listed((k + shift) % ROWS for k in range(SAMPLES))}]'
        + f',"time":[{listed(map(milliseconds, range(SAMPLES)))}]}}}}]}}'
    )


main()
