"""What a store does by its rules, over dictionaries and nothing of the program, for the tools that make scripts and journals: a script
grows command by command, and with it the journal that must come of it. What roots reach is found by a walk over forms, and a swap leaves
that and what was stored since the swap before."""
from shamap import DROPS, Tree, half, header, place_id, text

TX = (b"SND\0", b"\4")


class Ledger:
    """A ledger of these items: its trees, header, and hash."""

    def __init__(self, seq, parent, state, txs=(), parent_close=0, close=0):
        self.seq, self.state, self.close = seq, dict(state), close
        self.tree, self.txs = Tree(sorted(self.state.items())), Tree(sorted(dict(txs).items()), *TX)
        self.header = header(seq, parent, self.txs.hash, self.tree.hash, parent_close, close)
        self.form = b"LWR\0" + self.header
        self.hash = half(self.form)
        self.name = text(self.hash)

    def forms(self):
        return {self.hash: self.form, **self.tree.forms, **self.txs.forms}


def named_by(form):
    """The hashes that a form names: an inner node's branches, a header's two roots."""
    if form[:4] == b"MIN\0":
        return [form[i : i + 32] for i in range(4, len(form), 32)]
    if form[:4] == b"LWR\0":
        return [form[48:80], form[80:112]]
    return []


class Store:
    """The store by the rules, and the script, journal and fronts so far."""

    def __init__(self, records, interval):
        self.nodes, self.born = dict(records), set(records)
        self.listed, self.views, self.sessions, self.wanted = {}, {}, {}, {}
        self.interval, self.floor, self.last, self.epoch, self.turning = interval, 0, None, 0, None
        self.complete, self.closed, self.told, self.fronts = 0, 0, set(), []
        self.script = [f"store {text(h)} {text(form)}" for h, form in sorted(records.items())]
        self.journal, self.records = [], len(records)

    def say(self, line, reply):
        self.script.append(f"0 {line}")
        self.journal.append(f"{len(self.script)} 0 {line.split(' ')[0]} {reply}")

    def note(self, words):
        self.script.append(f"# {words}")

    def put(self, forms):
        for h, form in forms.items():
            if h not in self.nodes:
                self.nodes[h] = form
                self.born.add(h)

    def reach(self, hashes):
        found, left = set(), list(hashes)
        while left:
            h = left.pop()
            if h in self.nodes and h not in found:
                found.add(h)
                left += named_by(self.nodes[h])
        return found

    def is_retained(self, ledger):
        held = [other.hash for other in self.views.values()] + [base.hash for base, _, _ in self.sessions.values()]
        return ledger.hash in self.listed or ledger.hash in held

    def list(self, ledger):
        self.listed[ledger.hash] = ledger.seq
        self.last = ledger.seq if self.last is None else self.last
        self.told.add(ledger.hash)

    # the commands

    def want(self, ledger):
        if 0 < ledger.seq < self.floor:
            return self.say(f"want {ledger.name} {ledger.seq}", f"below floor {self.floor}")
        self.wanted[ledger.hash] = ledger
        self.told.add(ledger.hash)
        return self.say(f"want {ledger.name} {ledger.seq}", "opened")

    def base(self, ledger):
        self.say(f"peer 5 {ledger.name}", "added")
        root = ledger.tree.nodes[()][0]
        self.say(f"base 5 {ledger.name} {text(ledger.header)} {text(root)}", "good / good")
        self.put({ledger.hash: ledger.form, ledger.tree.hash: ledger.tree.forms[ledger.tree.hash]})

    def node(self, ledger, path):
        wire = ledger.tree.nodes[path][0]
        prefix = b"MLN\0" if wire[-1] == 1 else b"MIN\0"
        self.say(f"node 5 {ledger.name} state {place_id(list(path))} {text(wire)}", "good")
        self.put({half(prefix + wire[:-1]): prefix + wire[:-1]})

    def check(self, ledger):
        assert all(h in self.nodes for h in ledger.forms())
        del self.wanted[ledger.hash]
        self.list(ledger)
        self.complete += 1
        self.say(f"check {ledger.name}", "complete")

    def view(self, number, ledger):
        if not self.is_retained(ledger):
            return self.say(f"view {number} {ledger.name}", "notretained")
        self.views[number] = ledger
        return self.say(f"view {number} {ledger.name}", "ok")

    def unview(self, number):
        del self.views[number]
        self.say(f"unview {number}", "ok")

    def get(self, number, key):
        value = self.views[number].state.get(key)
        self.say(f"get {number} state {text(key)}", f"value {text(value)}" if value is not None else "none")

    def edit(self, number, ledger):
        assert self.is_retained(ledger)
        self.sessions[number] = (ledger, dict(ledger.state), {})
        self.say(f"edit {number} {ledger.name}", "ok")

    def put_item(self, number, key, data):
        self.sessions[number][1][key] = data
        self.say(f"put {number} {text(key)} {text(data)}", "ok")

    def del_item(self, number, key):
        del self.sessions[number][1][key]
        self.say(f"del {number} {text(key)}", "ok")

    def tx(self, number, key, data):
        self.sessions[number][2][key] = data
        self.say(f"tx {number} {text(key)} {text(data)}", "ok")

    def close(self, number, at):
        base, state, txs = self.sessions[number]
        if base.seq + 1 < self.floor:
            return self.say(f"close {number} {DROPS} {at} 10 0", f"below floor {self.floor}")
        made = Ledger(base.seq + 1, base.hash, state, txs, base.close, at)
        self.put(made.forms())
        del self.sessions[number]
        self.list(made)
        self.closed += 1
        self.say(f"close {number} {DROPS} {at} 10 0", f"closed {made.name}")
        return made

    def abandon(self, number):
        del self.sessions[number]
        self.say(f"abandon {number}", "ok")

    def begin(self):
        top = max(self.listed.values())
        if self.turning is not None:
            return self.say("begin", "busy")
        if top < self.last + self.interval:
            return self.say("begin", "notdue")
        self.turning, self.floor = top, self.last + 1
        self.listed = {h: seq for h, seq in self.listed.items() if seq >= self.floor}
        self.told = set(self.listed) | set(self.wanted) | {v.hash for v in self.views.values()}
        self.told |= {base.hash for base, _, _ in self.sessions.values()}
        return self.say("begin", f"begun {top} {self.floor}")

    def swap(self):
        if self.turning is None:
            return self.say("swap", "idle")
        stays = self.reach(self.told) | self.born
        self.nodes = {h: form for h, form in self.nodes.items() if h in stays}
        self.born, self.epoch, self.last, self.turning = set(), self.epoch + 1, self.turning, None
        self.say("swap", f"swapped {self.epoch}")
        return self.front()

    def front(self):
        """Notes the script so far, and what must come of it."""
        end = (f"end complete {self.complete} closed {self.closed} listed {len(self.listed)} floor {self.floor} last {self.last}"
               f" epoch {self.epoch}")
        dump = [f"store {text(h)} {text(form)}" for h, form in sorted(self.nodes.items())]
        self.fronts.append((list(self.script), self.journal + [end] + dump))
