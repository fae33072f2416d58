"""The words, addresses and prefixes of the program's text, in the program's one spelling of each (docs/formats.md, 'Spellings')."""
import enum
from functools import lru_cache
from ipaddress import IPv4Address, IPv4Network, IPv6Address, IPv6Network
from typing import Union

Address = Union[IPv4Address, IPv6Address]
Network = Union[IPv4Network, IPv6Network]

# As regular expressions. An IPv6 address is eight groups of four digits.
NUMBER = r"(?:0|[1-9][0-9]*)"
NAME = r"[A-Za-z0-9._-]{1,64}"
ADDRESS = rf"(?:{NUMBER}(?:\.{NUMBER}){{3}}|[0-9a-f]{{4}}(?::[0-9a-f]{{4}}){{7}})"
PREFIX = f"{ADDRESS}/{NUMBER}"


class NotAText(ValueError):
    """A line that the program doesn't write, or not in answer to what was asked."""


class _Word(str, enum.Enum):
    """One of few words, which is equal to its text."""

    def __str__(self) -> str:
        return str(self.value)


class Verdict(_Word):
    """The verdict of a path."""
    VALID = "valid"
    UNKNOWN = "unknown"
    INVALID = "invalid"


class State(_Word):
    """The state of a route's origin (RFC 6811)."""
    VALID = "valid"
    INVALID = "invalid"
    NOT_FOUND = "not-found"


class Rule(_Word):
    """Why the attribute Only-to-Customer tells a leak (RFC 9234): the role of the peer's AS, or that the attribute is malformed."""
    CUSTOMER = "customer"
    RS_CLIENT = "rs-client"
    PEER = "peer"
    MALFORMED = "malformed"


class Stance(_Word):
    """What one AS attests of another: that this is its provider, that it isn't, or nothing at all."""
    PROVIDES = "provides"
    REFUSES = "refuses"
    SILENT = "silent"


# The rows of a peer stand together, so its address is read once.
@lru_cache(maxsize=4096)
def read_address(text: str) -> Address:
    """The address of a text of the shape ADDRESS; ValueError where there is none."""
    return IPv6Address(text) if ":" in text else IPv4Address(text)


def written_address(address: Address) -> str:
    """The program's spelling of an address: ``exploded`` has another one from Python 3.13 on, where an IPv4 address is mapped."""
    return str(address) if address.version == 4 else address.packed.hex(":", 2)


def written_network(prefix: Network) -> str:
    """The program's spelling of a prefix."""
    return f"{written_address(prefix.network_address)}/{prefix.prefixlen}"


def read_network(text: str) -> Network:
    """The prefix of a text of the shape PREFIX; ValueError where there is none, as where a bit behind its length is set."""
    return IPv6Network(text) if ":" in text else IPv4Network(text)
