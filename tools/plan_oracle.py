"""A reader of plan texts written apart from the proved one, to compare the two on examples.

outcome(text) tells what docs/LANGUAGE.md and docs/REFUSALS.md say of a text of bytes: the plan's name and the counts of its
tables, or the number, place and finder of the first fault.
"""
import re

KEYWORDS = (b"Version TestPlan BinDefs BinGroup Bin LeafBin SortBinGroup Counters Test Flow FlowItem Result Property "
            b"PassFail IncrementCounters SetBin GoTo Return FlowDefs MainFlow").split()
WORD = re.compile(rb"[A-Za-z_][A-Za-z0-9_]*")
DIGITS = re.compile(rb"[0-9]+(\.[0-9]+)?")


class Refused(Exception):
    def __init__(self, number, place, finder):
        super().__init__(number, place, finder)
        self.number, self.place, self.finder = number, place, finder


class Tokens:
    def __init__(self, text):
        self.text, self.at = text, 0

    def fault(self, number, place):
        raise Refused(number, place, "token reader")

    def skip_gap(self):
        text = self.text
        while self.at < len(text):
            if text[self.at] in b" \t\r\n":
                self.at += 1
            elif text[self.at] == ord("#"):
                feed = text.find(b"\n", self.at)
                self.at = len(text) if feed < 0 else feed
            else:
                return

    def string(self, start):
        for i in range(start + 1, len(self.text) + 1):
            if i == len(self.text) or self.text[i] == 10:
                self.fault(5, start)
            if self.text[i] == ord('"'):
                self.at = i + 1
                return ("string", self.text[start + 1:i], start)
            if not 32 <= self.text[i] <= 126:
                self.fault(3, i)
            if i - start > 64:
                self.fault(4, start)

    def next(self):
        self.skip_gap()
        start = self.at
        if start >= len(self.text):
            return ("end", None, len(self.text))
        found = WORD.match(self.text, start) or DIGITS.match(self.text, start)
        if found:
            word = found.group()
            if len(word) > 32:
                self.fault(4, start)
            self.at = found.end()
            if not word[:1].isdigit():
                return ("keyword" if word in KEYWORDS else "name", word, start)
            if b"." in word:
                return ("decimal", word, start)
            if int(word) > 2147483647:
                self.fault(4, start)
            return ("number", int(word), start)
        byte = self.text[start:start + 1]
        if byte == b'"':
            return self.string(start)
        if byte in (b"{", b"}", b";", b":", b",", b"=", b".", b"-"):
            self.at = start + 1
            return ("mark", byte, start)
        self.fault(3, start)


class Plan:
    def __init__(self, text):
        self.tokens = Tokens(text)
        self.groups, self.bins, self.counters, self.tests, self.flows, self.items = [], [], [], [], [], []
        self.clauses = self.values = self.mentions = 0
        self.next = self.tokens.next

    # grammar

    def not_allowed(self, token):
        raise Refused(6, token[2], "grammar")

    def want(self, kind):
        token = self.next()
        return token if token[0] == kind else self.not_allowed(token)

    def expect(self, spelling):
        token = self.next()
        if token[0] not in ("keyword", "mark") or token[1] != spelling:
            self.not_allowed(token)

    @staticmethod
    def starts(token, *spellings):
        return token[0] in ("keyword", "mark") and token[1] in spellings

    # rules

    @staticmethod
    def rule(broken, number, place):
        if broken:
            raise Refused(number, place, "plan rules")

    def value_of(self, negative, token):
        value = -token[1] if negative else token[1]
        self.rule(not -32768 <= value <= 32767, 10, token[2])
        return value

    def value(self, full=lambda: False):
        token = self.next()
        if self.starts(token, b"-"):
            self.rule(full(), 12, token[2])
            number = self.want("number")
            return self.value_of(True, number), number[2]
        if token[0] != "number":
            self.not_allowed(token)
        return self.value_of(False, token), token[2]

    # productions

    def file(self):
        self.expect(b"Version")
        version = self.want("decimal")
        self.rule(version[1] != b"1.0", 10, version[2])
        self.expect(b";")
        self.expect(b"TestPlan")
        title = self.want("name")
        self.expect(b";")
        self.bin_definitions()
        token = self.next()
        if self.starts(token, b"Counters"):
            self.counter_names()
            token = self.next()
        while self.starts(token, b"Test"):
            token = self.test(token)
        if not self.starts(token, b"Flow"):
            self.not_allowed(token)
        while self.starts(token, b"Flow"):
            token = self.flow(token)
        if not self.starts(token, b"FlowDefs"):
            self.not_allowed(token)
        self.main_flow()
        end = self.next()
        return title[1].decode() if end[0] == "end" else self.not_allowed(end)

    def bin_definitions(self):
        self.expect(b"BinDefs")
        self.expect(b"{")
        token = self.next()
        if not self.starts(token, b"BinGroup"):
            self.not_allowed(token)
        while self.starts(token, b"BinGroup"):
            token = self.group(token)
        if not self.starts(token, b"SortBinGroup"):
            self.not_allowed(token)
        self.expect(b"=")
        name = self.want("name")
        self.rule(name[1] not in self.groups, 8, name[2])
        for leaf in (b for b in self.bins if b["leaf"]):
            self.rule(not self.sorted_by(leaf, self.groups.index(name[1])), 15, leaf["place"])
        self.expect(b";")
        self.expect(b"}")

    def sorted_by(self, one, group):
        while one is not None:
            if one["group"] == group:
                return True
            one = one["parent"]
        return False

    def group(self, keyword):
        self.rule(len(self.groups) >= 16, 12, keyword[2])
        name = self.want("name")
        self.rule(name[1] in self.groups, 7, name[2])
        self.groups.append(name[1])
        self.expect(b"{")
        token = self.next()
        if not self.starts(token, b"Bin", b"LeafBin"):
            self.not_allowed(token)
        while self.starts(token, b"Bin", b"LeafBin"):
            token = self.bin(token)
        return self.next() if self.starts(token, b"}") else self.not_allowed(token)

    def bin_named(self, word):
        return next((b for b in self.bins if b["name"] == word), None)

    def bin(self, keyword):
        group = len(self.groups) - 1
        self.rule(len(self.bins) >= 128, 12, keyword[2])
        name = self.want("name")
        self.rule(self.bin_named(name[1]), 7, name[2])
        number = self.want("number")
        self.rule(number[1] > 65535, 10, number[2])
        self.rule(any((b["group"], b["number"]) == (group, number[1]) for b in self.bins), 11, number[2])
        self.expect(b":")
        self.want("string")
        parent, token = None, self.next()
        if self.starts(token, b","):
            above = self.want("name")
            parent = self.bin_named(above[1])
            self.rule(parent is None, 8, above[2])
            self.rule(parent["leaf"], 9, above[2])
            self.expect(b";")
        elif not self.starts(token, b";"):
            self.not_allowed(token)
        self.bins.append(dict(name=name[1], place=name[2], group=group, leaf=keyword[1] == b"LeafBin",
                              number=number[1], parent=parent))
        return self.next()

    def listing(self, last, one):
        while True:
            one()
            token = self.next()
            if self.starts(token, last):
                return
            if not self.starts(token, b","):
                self.not_allowed(token)

    def counter_names(self):
        def counter():
            name = self.want("name")
            self.rule(name[1] in self.counters, 7, name[2])
            self.rule(len(self.counters) >= 32, 12, name[2])
            self.counters.append(name[1])
        self.expect(b"{")
        self.listing(b"}", counter)

    def runnable(self, word):
        return word in self.tests or any(f["name"] == word for f in self.flows)

    def test(self, keyword):
        self.rule(len(self.tests) >= 128, 12, keyword[2])
        self.want("name")
        name = self.want("name")
        self.rule(self.runnable(name[1]), 7, name[2])
        self.expect(b"{")
        token = self.want("name")
        while token[0] == "name":
            self.expect(b"=")
            setting = self.next()
            if self.starts(setting, b"-"):
                self.value_of(True, self.want("number"))
            elif setting[0] == "number":
                self.value_of(False, setting)
            elif setting[0] not in ("name", "string"):
                self.not_allowed(setting)
            self.expect(b";")
            token = self.next()
        if not self.starts(token, b"}"):
            self.not_allowed(token)
        self.tests.append(name[1])
        return self.next()

    def flow(self, keyword):
        self.rule(len(self.flows) >= 64, 12, keyword[2])
        name = self.want("name")
        self.rule(self.runnable(name[1]), 7, name[2])
        self.expect(b"{")
        token = self.next()
        if not self.starts(token, b"FlowItem"):
            self.not_allowed(token)
        own = dict(name=name[1], depth=1, returns=[], targets=[], items=[])
        while self.starts(token, b"FlowItem"):
            token = self.item(own, token)
        if not self.starts(token, b"}"):
            self.not_allowed(token)
        for target in own["targets"]:
            self.rule(target[1] not in own["items"], 8, target[2])
        self.flows.append(own)
        return self.next()

    def item(self, flow, keyword):
        self.rule(len(self.items) >= 512, 12, keyword[2])
        name = self.want("name")
        self.rule(name[1] in flow["items"], 7, name[2])
        run = self.want("name")
        self.rule(not self.runnable(run[1]), 8, run[2])
        inner = next((f for f in self.flows if f["name"] == run[1]), None)
        if inner:
            self.rule(inner["depth"] >= 8, 14, run[2])
            flow["depth"] = max(flow["depth"], inner["depth"] + 1)
        self.expect(b"{")
        token = self.next()
        if not self.starts(token, b"Result"):
            self.not_allowed(token)
        listed = []
        while self.starts(token, b"Result"):
            token = self.clause(flow, listed, token)
        if not self.starts(token, b"}"):
            self.not_allowed(token)
        self.rule(inner and any(v not in listed for v in inner["returns"]), 13, name[2])
        flow["items"].append(name[1])
        self.items.append(name[1])
        return self.next()

    def clause(self, flow, listed, keyword):
        def full():
            return self.values >= 2048

        def value():
            number, place = self.value(full)
            self.rule(number in listed, 11, place)
            self.rule(full(), 12, place)
            listed.append(number)
            self.values += 1
        self.rule(self.clauses >= 1024, 12, keyword[2])
        self.listing(b"{", value)
        self.next_step(flow, self.set_bin(self.increments(self.verdict(self.next()))))
        self.expect(b";")
        self.expect(b"}")
        self.clauses += 1
        return self.next()

    def verdict(self, token):
        if not self.starts(token, b"Property"):
            return token
        self.expect(b"PassFail")
        self.expect(b"=")
        word = self.want("string")
        self.rule(word[1] not in (b"Pass", b"Fail"), 10, word[2])
        self.expect(b";")
        return self.next()

    def increments(self, token):
        named = []

        def counter():
            name = self.want("name")
            self.rule(name[1] not in self.counters, 8, name[2])
            self.rule(name[1] in named, 11, name[2])
            self.rule(self.mentions >= 2048, 12, name[2])
            named.append(name[1])
            self.mentions += 1
        if not self.starts(token, b"IncrementCounters"):
            return token
        self.listing(b";", counter)
        return self.next()

    def set_bin(self, token):
        if not self.starts(token, b"SetBin"):
            return token
        group = self.want("name")
        self.rule(group[1] not in self.groups, 8, group[2])
        self.expect(b".")
        name = self.want("name")
        leaf = self.bin_named(name[1])
        self.rule(leaf is None, 8, name[2])
        self.rule(not leaf["leaf"] or leaf["group"] != self.groups.index(group[1]), 9, name[2])
        self.expect(b";")
        return self.next()

    def next_step(self, flow, token):
        if self.starts(token, b"GoTo"):
            flow["targets"].append(self.want("name"))
        elif self.starts(token, b"Return"):
            flow["returns"].append(self.value()[0])
        else:
            self.not_allowed(token)

    def main_flow(self):
        self.expect(b"{")
        self.expect(b"MainFlow")
        self.expect(b"=")
        name = self.want("name")
        self.rule(not self.runnable(name[1]), 8, name[2])
        self.rule(name[1] in self.tests, 9, name[2])
        self.expect(b";")
        self.expect(b"}")


def read(text):
    if not text:
        raise Refused(1, 0, "size check")
    if len(text) > 65536:
        raise Refused(2, 0, "size check")
    plan = Plan(text)
    return plan.file(), plan


def outcome(text):
    try:
        name, plan = read(text)
    except Refused as fault:
        return f"refused {fault.number} at {fault.place} by {fault.finder}"
    tables = ("groups", "bins", "counters", "tests", "flows", "items")
    counts = ", ".join(f"{len(getattr(plan, table))} {table}" for table in tables)
    return f"accepted: {name}: {counts}, {plan.clauses} clauses"
