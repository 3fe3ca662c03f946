#!/usr/bin/env python3
"""Writes `orders.journal` beside itself, byte by byte by docs/FORMATS.md, without any code of the program.

Two batches with three transactions stand behind open gates: two orders are put; then order 1001 is gone and a price is
put in one transaction. A third batch stands behind a gate that was never opened, so it has no meaning.
"""

from pathlib import Path
import struct


def number(value, size):
    return value.to_bytes(size, "big")


def text(value, size):
    data = value.encode()
    return number(len(data), size) + data


def header(name, value):
    if isinstance(value, int):
        return text(name, 1) + b"\x02" + struct.pack(">q", value)
    return text(name, 1) + b"\x03" + text(value, 4)


def message(id, priority, headers, body):
    fields = b"".join(header(name, value) for name, value in sorted(headers.items()))
    return number(id, 8) + b"\x01" + number(priority, 1) + number(len(headers), 2) + fields + text(body, 4)


def entered(queue, data):
    return b"\x01" + text(queue, 1) + number(len(data), 4) + data


def gone(queue, id):
    return b"\x02" + text(queue, 1) + number(id, 8)


def transaction(*items):
    return number(len(items), 4) + b"".join(items)


def batch(*transactions):
    inner = number(len(transactions), 4) + b"".join(transactions)
    return number(len(inner), 8) + inner


OPEN = b"\x01"
CLOSED = b"\x00"

JOURNAL = (
    b"QPIDQJNL" + number(1, 4) + number(0, 4)
    + OPEN
    + batch(
        transaction(entered("orders.eu", message(1001, 4, {"region": "EU", "amount": 250}, ""))),
        transaction(entered("orders.eu", message(1002, 9, {"region": "EU", "amount": 99}, "book"))),
    )
    + OPEN
    + batch(transaction(gone("orders.eu", 1001), entered("prices", message(7, 4, {}, "1049"))))
    + CLOSED
    + batch(transaction(gone("orders.eu", 1002)))
)

if __name__ == "__main__":
    Path(__file__).with_name("orders.journal").write_bytes(JOURNAL)
