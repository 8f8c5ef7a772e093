"""Names as they are: any name of a drill stands for one of the machine."""
import re

# what the machine takes for a name, and what a drill does
MOST_BYTES = 16
MACHINE = re.compile(r'[a-z0-9_]{1,%d}' % MOST_BYTES)
OWN = re.compile(r'[A-Za-z0-9_][A-Za-z0-9_.:/-]*')


def made(name, end=''):
    """A name of the machine that is made of another one."""
    return re.sub('[^a-z0-9_]', '_', name.lower())[:MOST_BYTES - len(end)] + end


class Names:
    """Names of a drill and of the machine, one for one. A name that is one of the machine's stays as it is, and is taken first."""

    def __init__(self, own):
        self.of, self.back = {}, {}
        for name in sorted(dict.fromkeys(own), key=lambda name: not MACHINE.fullmatch(name)):
            number, machine = 1, made(name)
            while machine in self.back:
                number += 1
                machine = made(name, '_%d' % number)
            self.of[name], self.back[machine] = machine, name

    def fresh(self, wanted):
        """A name of the machine that stands for none."""
        number, machine = 1, wanted
        while machine in self.back:
            number += 1
            machine = made(wanted, str(number))
        return machine


def declared(lines):
    """The names that lines declare: of clusters, topics, clients and subscriptions."""
    found = []
    for line in lines:
        words = line.split()
        if words[:1] in (['cluster'], ['topic'], ['client']):
            found += words[1:2]
        elif words[:1] == ['do'] and words[2:3] == ['sub']:
            found += words[3:4]
    return [name for name in found if OWN.fullmatch(name)]
