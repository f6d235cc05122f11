"""What goes over loopback to a port: what waits there, and a tap that reads along."""
import select, socket, threading

IPV4, UDP, HEADER = 0x0800, 17, 8

def may_tap():
    """whether this process may read along; mostly root alone may"""
    try: socket.socket(socket.AF_PACKET, socket.SOCK_DGRAM, socket.ntohs(IPV4)).close()
    except OSError: return False
    return True

def waits(port):
    """the bytes that wait at this port of 127.0.0.1, with what the system keeps beside them; None where no socket has it"""
    with open("/proc/net/udp") as file:
        for line in file:
            words = line.split()
            if words[1] == f"0100007F:{port:04X}": return int(words[4].split(":")[1], 16)
    return None

def datagram_of(packet, port):
    """the datagram that the port's own socket sends to itself in this IPv4 packet, or None"""
    at = (packet[0] & 15) * 4
    source, to, length = (int.from_bytes(packet[at + i:at + i + 2], "big") for i in (0, 2, 4))
    return packet[at + HEADER:at + length] if packet[9] == UDP and source == to == port else None

class Tap:
    """reads along while it is entered: `datagrams` are those that the port's own socket sends to itself, in order; `then` is called of each"""
    def __init__(self, port, then=lambda datagram: None):
        self.port, self.then, self.datagrams, self.stop = port, then, [], threading.Event()
        self.socket = socket.socket(socket.AF_PACKET, socket.SOCK_DGRAM, socket.ntohs(IPV4))
        self.socket.setsockopt(socket.SOL_SOCKET, socket.SO_RCVBUF, 1 << 22)    # others may use loopback too
        self.socket.bind(("lo", 0))
        self.thread = threading.Thread(target=self.read)
    def read(self):
        # what was sent before the end is there before it
        while not self.stop.is_set() or select.select([self.socket], [], [], 0)[0]:
            if not select.select([self.socket], [], [], 0.05)[0]: continue
            datagram = datagram_of(self.socket.recv(65536), self.port)
            if datagram is None: continue
            self.datagrams.append(datagram)
            self.then(datagram)
    def __enter__(self):
        self.thread.start()
        return self
    def __exit__(self, *_):
        self.stop.set()
        self.thread.join()
        self.socket.close()
