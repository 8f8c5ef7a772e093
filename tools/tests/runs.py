"""Small runs for tests, with what `geo steps`, `geo trace` and `geo run` print of them, written by hand by the rules of docs/."""
from geo_tools import steps
from geo_tools.script import Behind, Script


class Stored:
    """In the place of the program: the answers to one script."""

    path = 'stored'

    def __init__(self, raw, told, command='steps'):
        self.raw, self.told, self.command = raw, told, command

    def lines(self, command, raw, tell=None):
        assert (command, raw) == (self.command, self.raw), 'only one script is answered'
        return iter(self.told.splitlines())


# a producer publishes, a message reaches the other region, which is then cut off and lost; two consumers share a subscription
LOST = b'''# A message that nobody gets.
geo 1
cluster east
cluster west
topic t
client p t east
client c t east
client d t east
do p produce
do p pub 0 * k1 first
do p pub 1 * - second
do c sub s shared earliest replicated
do c ack east p 1
# The producer sends.
#: 21 run p's next 3 lines
go p
serve east p
go p
serve east p
get p
#: 22 give s at east
go c
serve east c
offer t east s
get c
get d
go c
serve east c
settle
# East goes.
#: 24 lose east
# lost east
#: 25 cut east west
# cut east west
go p
'''
LOST_STEPS = '''geo 1
cluster east
topic t
client p t east
steps
events 0 idle 0 rounds 0
topic t at east
sender west session 0 closed mark 0
topic t at west
sender east session 0 closed mark 0
client p at east lines 0/3 receipts 0 duplicates 0 errors 0
client c at east lines 0/2 receipts 0 duplicates 0 errors 0
client d at east lines 0/0 receipts 0 duplicates 0 errors 0
step 1 line 16 go p
  client p at east lines 2/3 receipts 0 duplicates 0 errors 0
step 2 line 17 serve east p
  topic t at east
  entry 0:0 east p 0 * data k1 first
step 3 line 18 go p
  client p at east lines 3/3 receipts 0 duplicates 0 errors 0
step 4 line 19 serve east p
  topic t at east
  entry 0:1 east p 1 * data - second
step 5 line 20 get p
  client p at east lines 3/3 receipts 1 duplicates 0 errors 0
step 6 line 22 go c
  client c at east lines 1/2 receipts 0 duplicates 0 errors 0
step 7 line 23 serve east c
  topic t at east
  sub s shared replicated mark 0 backlog 2
step 8 line 24 offer t east s
step 9 line 25 get c
  client c at east lines 1/2 receipts 0 duplicates 0 errors 0
  got east p 1
step 10 line 26 idle get d
step 11 line 27 go c
  client c at east lines 2/2 receipts 0 duplicates 0 errors 0
step 12 line 28 serve east c
  topic t at east
  sub s shared replicated mark 0 backlog 1
step 13 line 29 settle
  event 12 reset t east west
    topic t at east
    sender west session 1 opening mark 0
  event 13 take t east west good
    topic t at west
    entry 0:0 east p 0 * data k1 first
  events 13 idle 1 rounds 2
step 14 line 35 idle go p
events 13 idle 2 rounds 2
'''
LOST_REPORT = '''events 13 idle 2 rounds 2
topic t at east
entry 0:0 east p 0 * data k1 first
entry 0:1 east p 1 * data - second
sender west session 1 opening mark 0
sub s shared replicated mark 0 backlog 1
topic t at west
entry 0:0 east p 0 * data k1 first
sender east session 0 closed mark 0
client p at east lines 3/3 receipts 1 duplicates 0 errors 0
client c at east lines 2/2 receipts 0 duplicates 0 errors 0
got east p 1
client d at east lines 0/0 receipts 0 duplicates 0 errors 0
'''
LOST_TRACE = '''geo 1
trace
event 1
event 2
append t east 0:0 east p 0 * data k1 first
event 3
event 4
append t east 0:1 east p 1 * data - second
event 5
event 6
event 7
create t east s earliest
event 8
event 9
event 10
event 11
ack t east s 1-1 client
event 12
event 13
append t west 0:0 east p 0 * data k1 first
'''


def lost():
    """The run above."""
    return steps.run(Script(LOST), Stored(LOST, LOST_STEPS))


# a state in which a message stands at one region, with its receipt, and what goes on from it: it is sent to the other one
STATE, EVENTS = b'GEOSTATE', b'# On it goes.\nreconnect p\nsettle\n'
STATE_STEPS = '''geo 1
cluster a
cluster b
topic t
client p t a
do p produce
do p pub 0 * - hi
steps
events 16 idle 1 rounds 0
topic t at a
entry 0:0 a p 0 * data - hi
sender b session 1 closed mark 0
sub s shared replicated mark 0 backlog 1
topic t at b
sender a session 0 closed mark 0
client p at a lines 2/2 receipts 1 duplicates 0 errors 0
step 1 line 2 reconnect p
step 2 line 3 settle
  event 18 reset t a b
    topic t at a
    sender b session 2 opening mark 0
  event 19 take t a b good
    topic t at b
    entry 1:0 a p 0 * data - hi
  events 19 idle 1 rounds 1
events 19 idle 1 rounds 1
'''


def behind():
    """What goes on from the state above."""
    given = Behind(STATE, EVENTS)
    return steps.run(given, Stored(given.raw, STATE_STEPS, given.command))
