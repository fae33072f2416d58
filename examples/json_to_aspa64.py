#!/usr/bin/env python3
"""Writes the attestations of a validator's JSON as base64 lines for 'aspa64 NAME FILE': python3 examples/json_to_aspa64.py FILE

FILE is the JSON that rpki-client, Routinator or FORT writes; /dev/stdin is standard input. Each line is one payload in DER, as
docs/formats.md says under 'Payload files', and behind a space the moment at which it ends, where the JSON says that: rpki-client does,
as 'expires', and the other two don't. What else the JSON has (prefixes, router keys) is passed over. A JSON without an attestation, or
of another layout, is refused with status 1."""
import base64
import json
import sys


def value(tag, content):
    """A value in DER: its tag, its length in the shortest form, and its content."""
    size = len(content)
    if size < 0x80:
        return bytes([tag, size]) + content
    length = size.to_bytes((size.bit_length() + 7) // 8, "big")
    return bytes([tag, 0x80 + len(length)]) + length + content


def number(n):
    return value(0x02, n.to_bytes(n.bit_length() // 8 + 1, "big"))


def payload(customer, providers):
    """A payload of draft-ietf-sidrops-aspa-profile, version 1."""
    listed = b"".join(number(p) for p in sorted(set(providers)))
    return value(0x30, value(0xA0, number(1)) + number(customer) + value(0x30, listed))


def asn(word):
    """The number of an AS, which Routinator writes as AS64500."""
    return int(str(word).removeprefix("AS"))


def end(entry):
    """The moment at which an entry ends, or None where it has none, or one of more than 32 bits."""
    if "expires" not in entry:
        return None
    moment = entry["expires"]
    if type(moment) is not int or moment < 0:
        raise ValueError("no moment")
    return moment if moment < 2**32 else None


def attestations(tree):
    """Each customer with its providers, and the moment at which that ends, or None."""
    if "aspas" in tree:
        entries = tree["aspas"]
        rows = [(e["customer_asid"] if "customer_asid" in e else e["customer"], e["providers"], end(e)) for e in entries]
    elif "aspa" in tree:
        rows = [(customer, providers, None) for customer, providers in tree["aspa"].items()]
    else:
        sys.exit("json_to_aspa64.py: this JSON has neither a member 'aspas' nor a member 'aspa'")
    return [(asn(customer), [asn(p) for p in providers], moment) for customer, providers, moment in rows]


def line(customer, providers, moment):
    """A line of the file."""
    text = base64.b64encode(payload(customer, providers)).decode()
    return text if moment is None else f"{text} {moment}"


def main():
    if len(sys.argv) != 2:
        sys.exit(__doc__.split("\n")[0])
    with open(sys.argv[1], "rb") as file:
        text = file.read()
    try:
        tree = json.loads(text)
    except ValueError as fault:
        sys.exit(f"json_to_aspa64.py: this is no JSON: {fault}")
    try:
        lines = [line(*row) for row in attestations(tree)]
    except (AttributeError, KeyError, TypeError, ValueError, OverflowError):
        sys.exit("json_to_aspa64.py: an entry isn't in a known layout")
    if not lines:
        sys.exit("json_to_aspa64.py: this JSON has no attestation")
    print(*lines, sep="\n")


if __name__ == "__main__":
    main()
