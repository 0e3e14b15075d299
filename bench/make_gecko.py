#!/usr/bin/env python3
"""Writes a Gecko profile to the standard output, shaped like those that Firefox writes: of its one thread nine tenths of the text
are markers' payloads. Of the number MARKERS a fiftieth are samples, a sixth stack rows and a seventeenth frames. The same word
gives the same text."""
import sys

KINDS = ("Preference", "IPC", "Text", "Log")


def numbers(seed):
    """A plain linear congruential generator, so that no library's generator matters."""
    while True:
        seed = (seed * 6364136223846793005 + 1442695040888963407) % 2**64
        yield seed >> 33


def table(schema, rows):
    places = ",".join('"%s":%d' % (name, place) for place, name in enumerate(schema))
    return '{"schema":{%s},"data":[%s]}' % (places, ",".join(rows))


def time(count):
    return "%d.%04d" % divmod(count, 10_000)


def main():
    markers = int(sys.argv[1])
    samples, stacks, frames = markers // 50 + 1, markers // 6 + 1, markers // 17 + 1
    draw = numbers(1)
    names = ["name %d" % number for number in range(100)]
    places = ["0x7f%010x" % (next(draw) * 16 % 2**40) for _ in range(frames // 2)]
    places += ["run%d (resource://gre/modules/Part%d.sys.mjs:%d:13)" % (i, i % 50, i + 1) for i in range(frames - len(places))]
    depth, prefixes = [], []
    for row in range(stacks):
        prefix = next(draw) % row if row else None
        if prefix is not None and depth[prefix] >= 200:
            prefix = None
        depth.append(0 if prefix is None else depth[prefix] + 1)
        prefixes.append("null" if prefix is None else str(prefix))
    payload = '{"type":"%s","prefName":"browser.part%d.setting-%d","prefKind":"User","prefType":"Bool","prefValue":"%d"}'
    thread = ",".join([
        '"processType":"default","name":"GeckoMain","pid":1,"tid":1',
        '"samples":' + table(
            ("stack", "time", "eventDelay"),
            ("[%d,%s,0]" % (next(draw) % stacks, time(10_000 * i)) for i in range(samples))),
        '"markers":' + table(
            ("name", "startTime", "endTime", "phase", "category", "data"),
            ("[%d,%s,0,0,1,%s]" % (next(draw) % 100, time(137 * i), payload % (KINDS[i % 4], i % 97, next(draw) % 5000, i % 2))
             for i in range(markers))),
        '"stackTable":' + table(("prefix", "frame"), ("[%s,%d]" % (prefix, next(draw) % frames) for prefix in prefixes)),
        '"frameTable":' + table(
            ("location", "relevantForJS", "innerWindowID", "implementation", "line", "column", "category"),
            ("[%d,false,0]" % (100 + i) for i in range(frames))),
        '"stringTable":[%s]' % ",".join('"%s"' % text for text in names + places),
    ])
    library = '{"start":139637976727552,"end":140737488355327,"offset":0,"name":"libxul.so","path":"/usr/lib/libxul.so"}'
    meta = '{"version":34,"startTime":1796075128065.0051,"categories":[{"name":"Idle"},{"name":"Other","color":"grey"}]}'
    sys.stdout.write('{"libs":[%s],"meta":%s,"threads":[{%s}],"processes":[]}\n' % (library, meta, thread))


main()
