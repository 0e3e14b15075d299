#!/usr/bin/env python3
"""Writes a processed profile to the standard output: FUNCS functions, STACKS stack rows of a depth below 64, and SAMPLES
samples, a tenth of a millisecond apart. With a fourth word a thread without samples stands before this one, so that the
first thread's tree is empty. The same words give the same text."""
import sys

EMPTY = (
    '{"stringArray":[],"funcTable":{"name":[]},"frameTable":{"func":[]},"stackTable":{"frame":[],"prefix":[]},'
    '"samples":{"stack":[],"time":[]}}'
)


def numbers(seed):
    """A plain linear congruential generator, so that no library's generator matters."""
    while True:
        seed = (seed * 6364136223846793005 + 1442695040888963407) % 2**64
        yield seed >> 33


def column(name, cells):
    return '"%s":[%s]' % (name, ",".join(cells))


def main():
    funcs, stacks, samples = (int(word) for word in sys.argv[1:4])
    draw = numbers(1)
    depth, prefixes, frames = [], [], []
    for row in range(stacks):
        prefix = next(draw) % row if row else None
        if prefix is None or depth[prefix] >= 63 or next(draw) % 16 == 0:
            prefix = None
        depth.append(0 if prefix is None else depth[prefix] + 1)
        prefixes.append("null" if prefix is None else str(prefix))
        frames.append(str(next(draw) % funcs))
    names = ",".join('"function %d"' % i for i in range(funcs))
    index = [str(i) for i in range(funcs)]
    tables = ",".join([
        '"stringArray":[%s]' % names,
        '"funcTable":{%s}' % column("name", index),
        '"frameTable":{%s}' % column("func", index),
        '"stackTable":{%s,%s}' % (column("frame", frames), column("prefix", prefixes)),
        '"samples":{%s,%s}' % (
            column("stack", (str(next(draw) % stacks) for _ in range(samples))),
            column("time", ("%d.%d" % divmod(i, 10) for i in range(samples)))),
    ])
    threads = (EMPTY + "," if len(sys.argv) > 4 else "") + "{%s}" % tables
    sys.stdout.write('{"meta":{"preprocessedProfileVersion":47},"threads":[%s]}\n' % threads)


main()
