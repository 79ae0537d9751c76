"""The hash tree and the header of a ledger, by dictionaries and nothing of the program, for the tools that make scripts and journals."""
import hashlib
import itertools

DROPS = 10**17


def half(form):
    return hashlib.sha512(form).digest()[:32]


def text(blob):
    return blob.hex().upper()


def nibbles(key):
    return [n for byte in key for n in (byte >> 4, byte & 15)]


def place_id(path):
    padded = path + [0] * (64 - len(path))
    return bytes(16 * padded[i] + padded[i + 1] for i in range(0, 64, 2)).hex().upper() + f"{len(path):02X}"


class Tree:
    """A map of items: of each path the wire form and the paths below it, and the forms under their hashes."""

    def __init__(self, items, prefix=b"MLN\0", last=b"\1"):
        self.nodes, self.forms, self.prefix, self.last = {}, {}, prefix, last
        self.hash = self.build([], items)

    def build(self, path, items):
        if not items:
            return bytes(32)
        if len(items) == 1 and path:
            key, data = items[0]
            form, wire, below = self.prefix + data + key, data + key + self.last, []
        else:
            depth = len(path)
            parts = [[i for i in items if nibbles(i[0])[depth] == b] for b in range(16)]
            hashes = [self.build(path + [b], parts[b]) for b in range(16)]
            form, wire = b"MIN\0" + b"".join(hashes), b"".join(hashes) + b"\2"
            below = [path + [b] for b in range(16) if parts[b]]
        self.nodes[tuple(path)] = (wire, below)
        self.forms[half(form)] = form
        return half(form)

    def path(self, key):
        """The forms of the nodes from the root down to the key, or to where nothing is."""
        forms, at = [], self.hash
        while at != bytes(32):
            forms.append(self.forms[at])
            if not forms[-1].startswith(b"MIN\0"):
                break
            branch = 4 + 32 * nibbles(key)[len(forms) - 1]
            at = forms[-1][branch : branch + 32]
        return forms

    def missing(self, stored, path):
        """The missing places in the order of the walk."""
        if tuple(path) not in stored:
            return [path]
        return [place for below in self.nodes[tuple(path)][1] for place in self.missing(stored, below)]


def header(seq, parent, tx_root, state_root, parent_close=0, close=0, resolution=10):
    return (seq.to_bytes(4, "big") + DROPS.to_bytes(8, "big") + parent + tx_root + state_root
            + parent_close.to_bytes(4, "big") + close.to_bytes(4, "big") + bytes([resolution, 0]))


def pages(head, items, size):
    """The documents of a ledger's pages, as rippled answers `ledger_data` with `binary`: the first one has the header, all but the last one a
    marker."""
    name, seq = text(half(b"LWR\0" + head)), int.from_bytes(head[:4], "big")
    items, first = iter(items), True
    page = list(itertools.islice(items, size))
    while first or page:
        state = [{"data": text(data), "index": text(key)} for key, data in page]
        result = {"ledger_hash": name, "ledger_index": seq, "state": state, "status": "success", "validated": True}
        if first:
            result["ledger"] = {"closed": True, "ledger_data": text(head)}
        last, page, first = page, list(itertools.islice(items, size)), False
        if page:
            result["marker"] = text(last[-1][0])
        yield {"result": result}
