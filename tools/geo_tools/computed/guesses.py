"""What is likely to wait on each link of a run, so that geo_tools random makes few events that do nothing.

These are guesses, by much simpler rules than the machine's (docs/MACHINE.md): no report and no claim stands on them.
"""

# the packets that a broker answers
ANSWERED = ('connect', 'produce', 'pub', 'sub', 'unsub', 'close', 'closep', 'ping')
# what is sent again at a connect
KEPT = ('produce', 'sub', 'flow')


class Guesses:
    """What is on its way, what is stored, and who is connected, as far as a script's words tell it."""

    def __init__(self, clusters, clients):
        self.clusters, self.clients = clusters, {client.name: client for client in clients}
        self.up, self.down, self.forth, self.back = {}, {}, {}, {}
        self.connected, self.kept, self.held = set(), {}, {}
        self.log, self.read_to, self.seen, self.state, self.taking = {}, {}, {}, {}, set()
        self.replicated = set()
        self.offered, self.acknowledged, self.taker, self.permits, self.answers = {}, {}, {}, {}, {}

    def does(self, words):
        """Says whether an event is likely to do something, and takes up what it does."""
        if words[0] == 'halt':
            self.does(words[2:])
            return True
        return getattr(self, words[0])(*words[1:])

    # clients

    def connect(self, client):
        self.connected.add(client.name)
        self.held[client.name] = 0
        kept = [(kind, client.done) for kind in KEPT if kind in self.kept.get(client.name, ())]
        self.up.setdefault((client.name, client.at), []).extend([('connect', 0)] + kept)

    def reconnect(self, name):
        self.connect(self.clients[name])
        return True

    def may_go(self, client, word):
        kept = self.kept.setdefault(client.name, set())
        if word in ('pub', 'closep'):
            return 'produce' in kept
        if word in ('flow', 'close', 'unsub'):
            return 'sub' in kept
        return not word.startswith('ack') or self.held.get(client.name, 0) > 0

    def go(self, name):
        client = self.clients[name]
        if name not in self.connected or client.done == len(client.does):
            return False
        words = client.does[client.done].split(' ')
        if not self.may_go(client, words[0]):
            return False
        client.done += 1
        kept = self.kept[name]
        if words[0] in ('close', 'unsub'):
            kept -= {'sub', 'flow'}
        elif words[0] == 'closep':
            kept.discard('produce')
        elif words[0] in KEPT:
            kept.add(words[0])
        if words[0] == 'move':
            client.at = words[1]
            self.connect(client)
        else:
            self.up.setdefault((name, client.at), []).append((words[0], client.done))
        if words[0].startswith('ack'):
            self.held[name] = 0
        return True

    def get(self, name):
        waits = self.down.get((name, self.clients[name].at))
        if not waits:
            return False
        if waits.pop(0) == 'message':
            self.held[name] = self.held.get(name, 0) + 1
        return True

    # brokers and clients

    def serve(self, cluster, name):
        waits, client = self.up.get((name, cluster)), self.clients[name]
        if not waits:
            return False
        word, done = waits.pop(0)
        if word in ANSWERED:
            self.down.setdefault((name, cluster), []).append(word)
        if word == 'pub':
            self.log.setdefault((client.topic, cluster), []).append((cluster, 'data'))
        elif word == 'sub':
            self.subscribe(client, cluster, done)
        elif word == 'flow':
            self.permits[name] = self.permits.get(name, 0) + 10
        elif word.startswith('ack') and name in self.taker.values():
            for place, taker in self.taker.items():
                if taker == name:
                    self.acknowledged[place] = self.offered.get(place, 0)
        return True

    def subscribe(self, client, cluster, done):
        subs = [line.split(' ') for line in client.does[:done] if line.startswith('sub ')]
        if subs:
            place = (client.topic, cluster, subs[-1][1])
            if subs[-1][4] == 'replicated':
                self.replicated.add(place[:2])
            self.taker[place], self.permits[client.name] = client.name, 0
            self.offered[place] = self.acknowledged.get(place, 0)

    def drop(self, cluster, name):
        self.connected.discard(name)
        self.up[name, cluster] = []
        return True

    def offer(self, topic, cluster, sub):
        place = (topic, cluster, sub)
        at, log = self.offered.get(place, 0), self.log.get((topic, cluster), [])
        taker = self.taker.get(place)
        if at >= len(log) or taker is None:
            return False
        if log[at][1] == 'data':
            if self.permits.get(taker, 0) == 0:
                return False
            self.permits[taker] -= 1
            self.down.setdefault((taker, cluster), []).append('message')
        self.offered[place] = at + 1
        return True

    def seek(self, topic, cluster, sub, to):
        place = (topic, cluster, sub)
        self.taker.pop(place, None)
        self.offered[place] = self.acknowledged[place] = 0 if to != 'end' else len(self.log.get((topic, cluster), []))
        return True

    # brokers and brokers

    def is_open(self, link):
        return self.state.get(link) == 'open' and link in self.taking

    def reset(self, *link):
        self.state[link] = 'opening'
        self.read_to[link] = self.seen.get(link, 0)
        self.forth.setdefault(link, []).append('open')
        return True

    def read(self, *link):
        topic, here, there = link
        log, at = self.log.setdefault((topic, here), []), self.read_to.get(link, 0)
        if self.state.get(link) != 'open' or at >= len(log):
            return False
        self.read_to[link] = at + 1
        origin, what = log[at]
        if origin == here and what != 'snapshot':
            self.forth.setdefault(link, []).append(at)
        elif origin == there and what == 'request':
            log.append((here, 'response'))
        elif origin == there and what == 'response':
            self.answered(topic, here)
        return True

    def answered(self, topic, here):
        """One more answer to a snapshot in the making: behind all of them the second request or the snapshot."""
        count = self.answers[topic, here] = self.answers.get((topic, here), 0) + 1
        others = len(self.clusters) - 1
        if others > 1 and count == others:
            self.log[topic, here].append((here, 'request'))
        elif count == others * (1 if others == 1 else 2):
            self.log[topic, here].append((here, 'snapshot'))

    def take(self, topic, here, there, fate):
        link = (topic, here, there)
        if not self.forth.get(link):
            return False
        packet = self.forth[link].pop(0)
        if fate == 'lost':
            self.taking.discard(link)
        elif packet == 'open':
            self.taking.add(link)
            self.back.setdefault(link, []).append('open')
        elif link in self.taking:
            self.back.setdefault(link, []).append(packet)
            if packet >= self.seen.get(link, 0):
                self.seen[link] = packet + 1
                self.log.setdefault((topic, there), []).append(self.log[topic, here][packet])
        return True

    def receipt(self, topic, here, there, fate):
        link = (topic, here, there)
        if not self.back.get(link):
            return False
        if self.back[link].pop(0) == 'open' and fate != 'lost':
            self.state[link] = 'open'
        return True

    def snap(self, topic, here):
        if (topic, here) not in self.replicated or 0 < self.answers.get((topic, here), 0) < len(self.clusters) - 1:
            return False
        self.answers[topic, here] = 0
        self.log.setdefault((topic, here), []).append((here, 'request'))
        return True

    def restart(self, topic, here):
        for link in list(self.state):
            if link[:2] == (topic, here):
                self.state[link] = 'closed'
        self.taking -= {link for link in self.taking if (link[0], link[2]) == (topic, here)}
        self.connected -= {client.name for client in self.clients.values() if (client.topic, client.at) == (topic, here)}
        self.taker = {place: taker for place, taker in self.taker.items() if place[:2] != (topic, here)}
        return True

    # everything

    def settle(self):
        """All comes over."""
        for link in self.state:
            self.state[link], self.forth[link], self.back[link] = 'open', [], []
            self.taking.add(link)
        return True

    def stop(self):
        for table in (self.up, self.down, self.forth, self.back, self.taker, self.permits):
            table.clear()
        self.connected.clear()
        self.taking.clear()
        self.state = dict.fromkeys(self.state, 'closed')
        return True
