"""from_xml.py FILE: the bit-efficient header, on standard output, of the message that FILE has in the papers' XML.

Written from document 01's "Bytes" for what the papers' examples have, and for no more: parameters in the order of the XML, each length in
its short form. It knows nothing of the archive."""
import sys
import xml.etree.ElementTree as tree

REPRESENTATIONS = {"fipa.acl.rep.bitefficient.std": 0x10, "fipa.acl.rep.string.std": 0x11, "fipa.acl.rep.xml.std": 0x12}
ABSOLUTE, BASE, CLOSING = 0x20, 0xFE, b"\x01"


def text(value):
    return value.encode("ascii") + b"\x00"


def date(value):
    """Seventeen digits and four zero bits; T parts day and hour."""
    nibbles = [int(digit) + 1 for digit in value.replace("T", "")] + [0]
    return bytes([ABSOLUTE]) + bytes(high << 4 | low for high, low in zip(nibbles[::2], nibbles[1::2]))


def agent(element):
    coded = b"\x02" + text(element.findtext("name"))
    addresses, resolvers = element.find("addresses"), element.find("resolvers")
    if addresses is not None:
        coded += b"\x02" + b"".join(text(url.text) for url in addresses) + CLOSING
    if resolvers is not None:
        coded += b"\x03" + agents(resolvers)
    return coded + CLOSING


def agents(element):
    return b"".join(agent(one) for one in element) + CLOSING


def received(element):
    value = {part.tag.replace("received-", ""): part.get("value") for part in element}
    coded = text(value["by"]) + date(value["date"])
    for code, name in ((0x02, "from"), (0x03, "id"), (0x04, "via")):
        if name in value:
            coded += bytes([code]) + text(value[name])
    return coded + CLOSING


PARAMETERS = {
    "to": (0x02, agents),
    "from": (0x03, lambda element: agent(element[0])),
    "comments": (0x05, lambda element: text(element.text)),
    "payload-encoding": (0x07, lambda element: text(element.text)),
    "encrypted": (0x08, lambda element: text(element.text) + CLOSING),
    "intended-receiver": (0x09, agents),
    "received": (0x0A, received),
}


def envelope(params):
    inside = bytes([REPRESENTATIONS[params.findtext("acl-representation")]]) + date(params.findtext("date"))
    for element in params:
        if element.tag in PARAMETERS:
            code, form = PARAMETERS[element.tag]
            inside += bytes([code]) + form(element)
    inside += CLOSING
    return bytes([BASE]) + (len(inside) + 3).to_bytes(2, "big") + inside


if __name__ == "__main__":
    sys.stdout.buffer.write(envelope(tree.parse(sys.argv[1]).getroot().find("params")))
