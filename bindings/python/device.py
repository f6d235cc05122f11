#!/usr/bin/env python3
"""A device in Python: publishes the data set `plant` and prints the rows of its peer as they come, as examples/c/device.c does, with which it talks.

usage: device.py CONFIG PORT PEER-PORT SECONDS USED      (USED: how many numbers of the token were used before. A real device keeps this in a file: after a
                                                          restart with a number that is too low its peer refuses what it sends, and keys are used twice)"""
import select, socket, sys, time
from uapubsub import Publisher, Refusal, Subscriber

# of one look at the clock to the next
STEP_S = 0.01
# datagrams that are taken before the next turn
MOST_AT_ONCE = 64
# 1970-01-01 in the steps of a DateTime, 100 ns since 1601-01-01
EPOCH = 116_444_736_000_000_000


class Device:
    def __init__(self, text, link, peer):
        self.publisher, self.subscriber, self.link, self.peer = Publisher(text), Subscriber(text), link, peer
        self.sent = self.taken = self.refused = 0
        self.shown = None

    def hear(self, now):
        """Takes what came."""
        select.select([self.link], [], [], STEP_S)
        for _ in range(MOST_AT_ONCE):
            try:
                datagram = self.link.recv(65536)
            except OSError:
                break
            for it in self.subscriber.take(datagram, now):
                if isinstance(it, Refusal):
                    self.refused += 1
                else:
                    self.taken += 1
        self.subscriber.expire(now)

    def show(self):
        """Prints the row of the peer where it is another one."""
        row = self.subscriber.row("peer", "plant_reader")
        line = f"message {self.subscriber.number('peer', 'plant_reader')}: {row}" if row else f"no row, {self.subscriber.why('peer', 'plant_reader').name}"
        if line != self.shown:
            print(line, flush=True)
            self.shown = line

    def publish(self, now):
        self.publisher["plant"].update({"reading": now // 50, "celsius": f"{20 + now % 1000 / 100:.1f} C", "taken_at": time.time_ns() // 100 + EPOCH})
        for datagram in self.publisher.datagrams(now):
            try:
                self.link.sendto(datagram, self.peer)
                self.sent += 1
            except ConnectionError:
                pass  # the peer isn't there yet


def main(config, port, peer, seconds, used):
    with open(config, encoding="utf-8") as file:
        text = file.read()
    with socket.socket(socket.AF_INET, socket.SOCK_DGRAM) as link:
        link.bind(("127.0.0.1", port))
        link.setblocking(False)
        device = Device(text, link, ("127.0.0.1", peer))
        device.publisher.resume("plant_keys", 0, used)
        begun = time.monotonic()
        while (now := int((time.monotonic() - begun) * 1000)) < seconds * 1000:
            device.hear(now)
            device.show()
            device.publish(now)
        token, used = device.publisher.standing("plant_keys")
        print(f"sent {device.sent}, taken {device.taken}, refused {device.refused}; of the token {token} {used} numbers are used")


if __name__ == "__main__":
    if len(sys.argv) != 6:
        sys.exit(__doc__.split("\n\n")[1])
    main(sys.argv[1], *map(int, sys.argv[2:]))
