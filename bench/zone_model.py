"""A plain model of the zones and of a request's steps, to check what a replay printed: bench/stress uses it.

It follows nginx's rules on lists and dictionaries, and nothing of the program. A zone replays its printed history from its
opening, and each printed reply must be its own. A worker's requests go through their steps again, each call being the next
of the worker's own in that zone's history, and each printed decision must be what they lead to.
"""
from collections import OrderedDict

PAGE = 4096
# the first index of a page that a caller may get, by the size of its blocks
FIRST_USABLE = {8: 8, 16: 2, 32: 1}


class Wrong(Exception):
    """What was printed isn't a replay."""


def expect(there, what):
    if not there:
        raise Wrong(what)


class Slab:
    """The slab pool: runs of free pages, and for each size its pages that have a free block."""

    def __init__(self, size):
        pages = (size - 704) // 4120
        start = -(-(704 + 24 * pages) // PAGE) * PAGE
        self.pages = min(pages, (size - start) // PAGE)
        self.start = start
        self.runs = [(0, self.pages)]
        self.used_pages = {}
        self.lists = {8 << n: [] for n in range(9)}
        self.stats = {8 << n: [0, 0, 0, 0] for n in range(9)}

    def take(self, count):
        for place, (first, length) in enumerate(self.runs):
            if length >= count:
                rest = [(first + count, length - count)] if length > count else []
                self.runs[place:place + 1] = rest
                return first
        return None

    def put(self, first, count):
        after = next((run for run in self.runs if run[0] == first + count), None)
        before = next((run for run in self.runs if sum(run) == first), None)
        for run in (after, before):
            if run:
                self.runs.remove(run)
                first, count = min(first, run[0]), count + run[1]
        self.runs.insert(0, (first, count))

    def grant(self, wanted):
        if wanted > 2048:
            count = -(-wanted // PAGE)
            first = self.take(count)
            if first is not None:
                self.used_pages[first] = ("run", count)
            return None if first is None else self.start + PAGE * first
        size = 8
        while size < wanted:
            size *= 2
        stat = self.stats[size]
        stat[2] += 1
        if not self.lists[size]:
            page = self.take(1)
            if page is None:
                stat[3] += 1
                return None
            usable = (1 << PAGE // size) - (1 << FIRST_USABLE.get(size, 0))
            self.used_pages[page] = [size, usable, usable]
            self.lists[size].append(page)
            stat[0] += usable.bit_count()
        page = self.lists[size][0]
        state = self.used_pages[page]
        index = (state[1] & -state[1]).bit_length() - 1
        state[1] &= state[1] - 1
        if not state[1]:
            self.lists[size].pop(0)
        stat[1] += 1
        return self.start + PAGE * page + size * index

    def free(self, at):
        page, inside = divmod(at - self.start, PAGE)
        state = self.used_pages[page]
        if state[0] == "run":
            del self.used_pages[page]
            self.put(page, state[1])
            return
        size, free, usable = state
        if not free:
            self.lists[size].insert(0, page)
        state[1] |= 1 << inside // size
        stat = self.stats[size]
        stat[1] -= 1
        if state[1] == usable:
            self.lists[size].remove(page)
            stat[0] -= usable.bit_count()
            del self.used_pages[page]
            self.put(page, 1)

    def tail(self, entries):
        free = sum(length for _, length in self.runs)
        lines = [f"pages {self.pages} free {free} entries {entries}"]
        for size, (total, used, reqs, fails) in self.stats.items():
            if reqs:
                lines.append(f"slot {size} total {total} used {used} reqs {reqs} fails {fails}")
        return lines


def amount_of(rate, excess, last, now):
    ms = now - last
    ms = 1 if ms < -60000 else max(ms, 0)
    return max(0, excess - rate * ms // 1000 + 1000), ms


class ReqZone:
    """The zone of `limit_req`: entries by key, the least recently used first."""

    kind = "req"

    def __init__(self, name, size, rate):
        self.name, self.rate = name, rate
        self.slab = Slab(size)
        self.slab.grant(80)
        self.slab.grant(22 + len(name))
        self.table = OrderedDict()
        self.at = {}

    def tail(self):
        return self.slab.tail(len(self.table))

    def expire(self, now, forced):
        gone, removed = (0, 0) if forced else (1, 0)
        while gone < 3 and self.table:
            key, entry = next(iter(self.table.items()))
            if entry["count"]:
                break
            if gone:
                ms = abs(now - entry["last"])
                if ms < 60000 or entry["excess"] - self.rate * ms // 1000 > 0:
                    break
            del self.table[key]
            del self.at[entry["at"]]
            self.slab.free(entry["at"])
            gone, removed = gone + 1, removed + 1
        return removed

    def check(self, key, now, burst, last):
        entry = self.table.get(key)
        if entry is None:
            return self.enter(key, now, last)
        self.table.move_to_end(key)
        excess, ms = amount_of(self.rate, entry["excess"], entry["last"], now)
        if excess > burst:
            return f"busy {excess}"
        if not last:
            entry["count"] += 1
            return f"again {excess} {entry['at']}"
        entry["excess"] = excess
        if ms:
            entry["last"] = now
        return f"ok {excess}"

    def enter(self, key, now, last):
        size = 80 + len(key) // 2
        removed = self.expire(now, False)
        at = self.slab.grant(size)
        if at is None:
            removed += self.expire(now, True)
            at = self.slab.grant(size)
        if at is None:
            return f"noroom {removed}"
        entry = {"at": at, "excess": 0, "last": now if last else 0, "count": 0 if last else 1}
        self.table[key] = entry
        self.at[at] = entry
        return "ok 0" if last else f"again 0 {at}"

    def reply(self, words):
        if words[0] == "check":
            return self.check(words[1], int(words[2]), int(words[3]), words[4] == "1")
        entry = self.at[int(words[1])]
        expect(entry["count"] > 0, "an entry without a hold is given back")
        entry["count"] -= 1
        if words[0] == "release":
            return "released"
        now = int(words[2])
        entry["excess"], ms = amount_of(self.rate, entry["excess"], entry["last"], now)
        if ms:
            entry["last"] = now
        return f"accounted {entry['excess']}"


class ConnZone:
    """The zone of `limit_conn`: a count by key."""

    kind = "conn"

    def __init__(self, name, size):
        self.name = name
        self.slab = Slab(size)
        self.slab.grant(64)
        self.slab.grant(23 + len(name))
        self.table = {}
        self.at = {}

    def tail(self):
        return self.slab.tail(len(self.table))

    def reply(self, words):
        if words[0] == "close":
            key = self.at[int(words[1])]
            at, count = self.table[key]
            self.table[key] = (at, count - 1)
            if count == 1:
                del self.table[key], self.at[at]
                self.slab.free(at)
            return f"closed {count - 1}"
        key, limit = words[1], int(words[2])
        if key not in self.table:
            at = self.slab.grant(36 + len(key) // 2)
            if at is None:
                return "noroom"
            self.at[at] = key
            self.table[key] = (at, 0)
        at, count = self.table[key]
        if count >= limit:
            return f"atlimit {count}"
        self.table[key] = (at, count + 1)
        return f"opened {at} {count + 1}"


class PeerZone:
    """The zone of an upstream, in round robin or by least connections."""

    kind = "peer"

    def __init__(self, name, size, least, primary, backup):
        self.name, self.least = name, least
        self.slab = Slab(size)
        self.slab.grant(64)
        self.slab.grant(21 + len(name))
        self.lists = []
        for servers in (primary, backup):
            if servers:
                self.slab.grant(64)
            for server in servers:
                self.slab.grant(104 + len(server["address"]))
            self.lists.append([dict(server, effective=server["weight"], current=0, conns=0, fails=0, checked=0, accessed=0) for server in servers])
        self.single = len(primary) == 1 and not backup

    def tail(self):
        return self.slab.tail(sum(len(servers) for servers in self.lists))

    def available(self, peer, index, tried, now):
        if peer["down"] or peer["max_conns"] and peer["conns"] >= peer["max_conns"]:
            return False
        if self.single:
            return True
        out = peer["max_fails"] and peer["fails"] >= peer["max_fails"] and now - peer["checked"] <= peer["fail_timeout"]
        return not (tried >> index & 1 or out)

    def choose(self, number, tried, now):
        peers = self.lists[number]
        able = [(index, peer) for index, peer in enumerate(peers) if self.available(peer, index, tried, now)]
        if not able:
            return "nopeer"
        if self.single:
            able[0][1]["conns"] += 1
            return f"peer {able[0][0]}"
        if self.least:
            best = able[0]
            for one in able[1:]:
                if one[1]["conns"] * best[1]["weight"] < best[1]["conns"] * one[1]["weight"]:
                    best = one
            able = [one for one in able if one[1]["conns"] * best[1]["weight"] == best[1]["conns"] * one[1]["weight"]]
        total = 0
        if not self.least or len(able) > 1:
            best = None
            for one in able:
                peer = one[1]
                peer["current"] += peer["effective"]
                total += peer["effective"]
                peer["effective"] = min(peer["effective"] + 1, max(peer["weight"], peer["effective"]))
                if best is None or peer["current"] > best[1]["current"]:
                    best = one
        index, peer = best
        peer["current"] -= total
        if now - peer["checked"] > peer["fail_timeout"]:
            peer["checked"] = now
        peer["conns"] += 1
        return f"peer {index}"

    def reply(self, words):
        if words[0] == "choose":
            return self.choose(int(words[1]), int(words[2], 16), int(words[3]))
        peer, now = self.lists[int(words[1])][int(words[2])], int(words[4])
        if not self.single and words[3] == "failed":
            peer["fails"] += 1
            peer["accessed"] = peer["checked"] = now
            if peer["max_fails"]:
                peer["effective"] = max(0, peer["effective"] - peer["weight"] // peer["max_fails"])
        elif not self.single and peer["accessed"] < peer["checked"]:
            peer["fails"] = 0
        expect(peer["conns"] > 0, "a server without a connection is given back")
        peer["conns"] -= 1
        return "freed"


def thousandths(excess):
    return f"{excess // 1000}.{excess % 1000:03}"


class Worker:
    """The requests of one worker, each call of which is its next one in a zone's history."""

    def __init__(self, config, own):
        self.config, self.own = config, own
        self.active = {}

    def ask(self, zone, call):
        expect(self.own[zone], f"a call of zone {zone} is missing: {call}")
        asked, reply = self.own[zone].popleft()
        expect(asked == call, f"zone {zone} was asked {asked} in place of {call}")
        return reply.split()

    def decide(self, moment, conn, words):
        if words[0] == "open":
            if conn in self.active:
                return "open busy"
            return "open " + self.open(moment, conn, self.config["levels"][words[1]], words[2])
        request = self.active.get(conn)
        if request is None:
            return words[0] + " idle"
        if words[0] == "done":
            self.end(request, "good", moment)
            del self.active[conn]
            return "done end"
        return "fail " + self.fail(moment, conn, request)

    def open(self, moment, conn, level, address):
        key = bytes(int(part) for part in address.split(".")).hex()
        limited = self.limit_requests(moment, level, key)
        told, status, delayed = limited
        if status:
            return f"{status} {told} conn=- peer=-"
        opened, refused = [], None
        for zone, limit in level["conn"]:
            reply = self.ask(zone, f"open {key} {limit}")
            if reply[0] != "opened":
                refused = zone
                break
            opened.append((zone, reply[1]))
        conn_told = "PASSED" if opened else "-"
        if refused is not None:
            self.close(opened)
            return f"503 {told} conn=REJECTED:{self.config['zones'][refused].name} peer=-"
        if level["peers"] is None:
            self.active[conn] = {"opened": opened, "peer": None}
            return f"pass {told} conn={conn_told} peer=-"
        zone = level["peers"]
        servers = self.config["zones"][zone].lists
        tries = sum(not server["down"] for servers_of in servers for server in servers_of)
        request = {"opened": opened, "peer": None, "zone": zone, "list": 0, "tried": 0, "tries": tries}
        if not self.choose(request, moment):
            self.close(opened)
            return f"502 {told} conn={conn_told} peer=-"
        self.active[conn] = request
        return f"pass {told} conn={conn_told} peer={self.address(request)}"

    def limit_requests(self, moment, level, key):
        """The words `req=.. delay=.. by=.. excess=..`, and the status of a refusal."""
        holds, own = [], None
        limits = level["req"]
        for place, (zone, burst, allowed) in enumerate(limits):
            last = place == len(limits) - 1
            reply = self.ask(zone, f"check {key} {moment} {burst} {int(last)}")
            name = self.config["zones"][zone].name
            if reply[0] in ("busy", "noroom"):
                for held, at, _ in reversed(holds):
                    self.ask(held, f"release {at}")
                excess = thousandths(int(reply[1])) if reply[0] == "busy" else "full"
                return f"req=REJECTED delay=0 by={name} excess={excess}", 503, 0
            if reply[0] == "again":
                holds.append((zone, reply[2], allowed))
            else:
                own = (zone, int(reply[1]), allowed)
        if not limits:
            return "req=- delay=0 by=- excess=-", 0, 0
        best = self.delay_of(*own)
        for zone, at, allowed in reversed(holds):
            reply = self.ask(zone, f"account {at} {moment}")
            one = self.delay_of(zone, int(reply[1]), allowed)
            if one[0] > best[0]:
                best = one
        delay, zone, excess = best
        if not delay:
            return "req=PASSED delay=0 by=- excess=-", 0, 0
        return f"req=DELAYED delay={delay} by={self.config['zones'][zone].name} excess={thousandths(excess)}", 0, delay

    def delay_of(self, zone, excess, allowed):
        if allowed is None or excess <= allowed:
            return 0, zone, excess
        return (excess - allowed) * 1000 // self.config["zones"][zone].rate, zone, excess

    def choose(self, request, moment):
        while True:
            reply = self.ask(request["zone"], f"choose {request['list']} {request['tried']:016x} {moment // 1000}")
            if reply[0] == "peer":
                request["peer"] = int(reply[1])
                request["tried"] |= 1 << request["peer"]
                return True
            if request["list"] or not self.config["zones"][request["zone"]].lists[1]:
                return False
            request["list"], request["tried"] = 1, 0

    def fail(self, moment, conn, request):
        if request["peer"] is None:
            self.close(request["opened"])
            del self.active[conn]
            return "502"
        self.free(request, "failed", moment)
        request["tries"] = max(0, request["tries"] - 1)
        if self.config["zones"][request["zone"]].single:
            request["tries"] = 0
        if request["tries"] and self.choose(request, moment):
            return f"next peer={self.address(request)}"
        self.close(request["opened"])
        del self.active[conn]
        return "502"

    def end(self, request, how, moment):
        if request["peer"] is not None:
            self.free(request, how, moment)
        self.close(request["opened"])

    def free(self, request, how, moment):
        self.ask(request["zone"], f"free {request['list']} {request['peer']} {how} {moment // 1000}")
        request["peer"] = None

    def close(self, opened):
        for zone, at in reversed(opened):
            self.ask(zone, f"close {at}")

    def address(self, request):
        return self.config["zones"][request["zone"]].lists[request["list"]][request["peer"]]["address"]
