"""Each connection's octets, ended after each of them: suite/models cut_streams < CAPTURE > CAPTURE

What came on a connection is sent on connections of its own, to each of its octets in turn: as one
piece, and then the end. The console's orders stand first. How many octets the connections had is
told on standard error.
"""
import sys


def main(_words: list[str]) -> None:
    streams, orders = {}, []
    for line in sys.stdin.read().splitlines():
        words = line.split(" ")
        if words[0] == "open":
            streams[words[1]] = b""
        elif words[0] == "piece" and words[1] in streams:
            streams[words[1]] += bytes.fromhex(words[2].strip("-"))
        elif words[0] in ("schedule", "withdraw"):
            orders.append(line)
    for line in orders:
        print(line)
    number = 0
    for stream in streams.values():
        for length in range(len(stream) + 1):
            number += 1
            print(f"open {number}\npiece {number} {stream[:length].hex() or '-'}\nend {number}")
    print(sum(map(len, streams.values())), file=sys.stderr)
