#!/usr/bin/env python3
"""A stand-in for a cache, to try examples/feed.txt: it listens at 127.0.0.1:8282 until it is ended.

It speaks the RPKI to Router protocol in version 2, as far as docs/formats.md says it. Asked for everything, it announces the attestations of
neighbours.base64 and the origins of origins.json, with serial 1. Asked what changed since then, it announces that 64540 attests its provider
64541, and that 64510 may originate 198.51.100.0/24 in place of 64511, with serial 2."""
import ipaddress
import socketserver
import struct

from make_dumps import ATTESTED

SESSION = 7

# prefix, maximum length, and the AS that may originate it
AUTHORIZED = [("198.51.100.0/24", 24, 64511), ("203.0.113.0/24", 24, 64530), ("2001:db8:20::/44", 44, 64520)]
COMES, GOES = [("198.51.100.0/24", 24, 64510)], AUTHORIZED[:1]


def pdu(kind, field, body=b""):
    return struct.pack(">BBHI", 2, kind, field, 8 + len(body)) + body


def prefix_pdu(announced, prefix, most, asn):
    net = ipaddress.ip_network(prefix)
    fields = bytes([announced, net.prefixlen, most, 0]) + net.network_address.packed + struct.pack(">I", asn)
    return pdu(4 if net.version == 4 else 6, 0, fields)


def answer(attested, comes, goes, serial):
    """A Cache Response, an announcement or a withdrawal for each prefix and each customer, and an End of Data."""
    pdus = [pdu(3, SESSION)]
    pdus += [prefix_pdu(1, *held) for held in comes] + [prefix_pdu(0, *held) for held in goes]
    for customer, providers in attested.items():
        pdus.append(pdu(11, 0x0100, struct.pack(f">{1 + len(providers)}I", customer, *providers)))
    pdus.append(pdu(7, SESSION, struct.pack(">IIII", serial, 3600, 600, 7200)))
    return b"".join(pdus)


class Router(socketserver.StreamRequestHandler):
    def handle(self):
        while head := self.rfile.read(8):
            _, kind, session, length = struct.unpack(">BBHI", head)
            body = self.rfile.read(length - 8)
            if kind == 2:
                self.wfile.write(answer(ATTESTED, AUTHORIZED, [], 1))
            elif kind == 1 and session == SESSION:
                (serial,) = struct.unpack(">I", body)
                self.wfile.write(answer({64540: [64541]}, COMES, GOES, 2) if serial == 1 else answer({}, [], [], 2))
            else:
                return


def main():
    socketserver.ThreadingTCPServer.allow_reuse_address = True
    with socketserver.ThreadingTCPServer(("127.0.0.1", 8282), Router) as server:
        server.serve_forever()


main()
