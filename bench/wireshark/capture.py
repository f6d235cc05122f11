"""Datagrams in a file that tshark reads, and what tshark with the dissector tells of them."""
import json, os, struct, subprocess

HERE = os.path.dirname(os.path.abspath(__file__))
TOP = os.path.dirname(os.path.dirname(HERE))
DISSECTOR = os.path.join(TOP, "tools", "wireshark", "uadp.lua")
PORT = 4840
RAW_IP, SNAP = 101, 262144
PCAP = 0xA1B2C3D4
LUA_ERROR = "_ws.lua.error"


def write_pcap(path, datagrams, port=PORT):
    """one packet of IPv4 and UDP for each, a millisecond apart"""
    with open(path, "wb") as out:
        out.write(struct.pack("<IHHiIII", PCAP, 2, 4, 0, 0, SNAP, RAW_IP))
        for at, datagram in enumerate(datagrams):
            udp = struct.pack(">HHHH", 50000, port, 8 + len(datagram), 0) + datagram
            packet = struct.pack(">BBHHHBBH4s4s", 0x45, 0, 20 + len(udp), 0, 0, 64, 17, 0, bytes([10, 0, 0, 1]), bytes([10, 0, 0, 2])) + udp
            out.write(struct.pack("<IIII", at // 1000, at % 1000 * 1000, len(packet), len(packet)) + packet)


def tshark(path, *words, preferences=(), dissector=DISSECTOR):
    """its lines"""
    command = ["tshark", "-X", f"lua_script:{dissector}", "-r", path, *(word for line in preferences for word in ("-o", line)), *words]
    ran = subprocess.run(command, capture_output=True, text=True, errors="replace")
    errors = [line for line in ran.stderr.splitlines() if not line.startswith("Running as user")]
    if ran.returncode or errors:
        raise SystemExit(f"tshark: status {ran.returncode}: {' '.join(errors)}")
    return ran.stdout.splitlines()


def is_field(pairs):
    return isinstance(pairs, list) and all(isinstance(it, tuple) for it in pairs)


def flat(pairs, raw=None):
    """(name, value, bytes) of each field, in the order of the tree; the bytes are None where it stands for none"""
    for key, value in pairs:
        if is_field(value) and value != []:
            yield from flat(value)
        elif key.endswith("_raw"):
            digits, _, _, mask, _ = value
            raw = None if mask else bytes.fromhex(digits)
        elif key.startswith("uadp."):
            yield key[len("uadp."):], value, raw
            raw = None
        elif key == LUA_ERROR:
            yield key, value, None


def dissected(path, preferences=(), dissector=DISSECTOR, words=()):
    """for each packet its fields"""
    lines = tshark(path, "-T", "json", "-x", *words, preferences=preferences, dissector=dissector)
    packets = json.loads("\n".join(lines), object_pairs_hook=lambda pairs: pairs)
    for packet in packets:
        layers = dict(dict(packet)["_source"])["layers"]
        yield list(flat(layers))
