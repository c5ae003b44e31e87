#!/usr/bin/env python3
"""Measures what a page costs as the store grows, by the program over its tables in memory.

    bench/pages.py [EVENTS..]

For each number of events (1,000, 10,000 and 100,000 where none is named), over 100 days, it prints the milliseconds
between a request line and its reply: the first page of a value that one event has, and the first and the second page of
one that each event has, with 10 events a page. Each is the least of five queries.
"""
import json
import os
import subprocess
import sys
import time

TOP = os.path.dirname(os.path.dirname(os.path.abspath(__file__)))


class Program:
    def __init__(self):
        self.process = subprocess.Popen([os.path.join(TOP, "datawave"), "exec"], stdin=subprocess.PIPE, stdout=subprocess.PIPE)

    def ask(self, request):
        """The reply, and the milliseconds until it came."""
        line = json.dumps(request).encode() + b"\n"
        start = time.perf_counter()
        self.process.stdin.write(line)
        self.process.stdin.flush()
        reply = self.process.stdout.readline()
        return json.loads(reply), (time.perf_counter() - start) * 1_000


def record(number, rare):
    fields = {"A": ["all", "rare"] if number == rare else "all", "ID": str(number), "NOTE": "a note on event %d" % number}
    return {"type": "lab", "date": "2024%02d%02d" % (1 + number % 10, 1 + number // 10 % 10), "fields": fields}


def fill(program, events):
    program.ask({"op": "define", "field": "A", "kind": "NOOP", "indexed": True, "reversed": False})
    for first in range(0, events, 1_000):
        records = [record(number, events // 2) for number in range(first, first + 1_000)]
        reply, _ = program.ask({"op": "ingest", "records": records})
        assert reply["new"] == 1_000, reply


def page(program, value, pages):
    """The milliseconds of the last of so many pages of a new query."""
    create = {"op": "create", "caller": "ann", "query": "A == '%s'" % value, "from": "20240101", "to": "20241231"}
    number = program.ask(create)[0]["number"]
    for at in range(1, pages + 1):
        reply, took = program.ask({"op": "page", "caller": "ann", "number": number, "page": at})
        assert reply["ok"] == "page" and reply["events"], reply
    program.ask({"op": "close", "caller": "ann", "number": number})
    return took


def least(program, value, pages):
    return min(page(program, value, pages) for _ in range(5))


def main():
    print("events   rare, page 1   all, page 1   all, page 2   (milliseconds)")
    for events in [int(word) for word in sys.argv[1:]] or [1_000, 10_000, 100_000]:
        program = Program()
        fill(program, events)
        took = (least(program, "rare", 1), least(program, "all", 1), least(program, "all", 2))
        print("%6d   %12.2f   %11.2f   %11.2f" % (events, *took), flush=True)
        program.process.stdin.close()
        program.process.wait()


if __name__ == "__main__":
    main()
