# Prices by article, some of them changed and some removed: what `geo compact` keeps of them. Two clusters, ledgers of three entries,
# a topic, and two clients at a: p sets the prices, and q reads them.
geo 1
ledger 3
cluster a
cluster b
topic prices
client p prices a
client q prices a
# Apples and pears have a price, apples another one, and the fourth message has no key.
do p produce
do p pub 0 * apple 10
do p pub 1 * pear 20
do p pub 2 * apple 11
do p pub 3 * - closed on monday
# Pears change too. Apples are sold out: a message without text removes their key.
do p pub 4 * pear 21
do p pub 5 * apple 
# Apples come back, plums are new, and pears are removed.
do p pub 6 * apple 14
do p pub 7 * plum 30
do p pub 8 * pear 
# The subscription of q is replicated, so that a can ask for a snapshot: its marker is an entry too.
do q sub s exclusive earliest replicated
# q connects and subscribes.
reconnect q
serve a q
go q
serve a q
# p connects, attaches its producer, and publishes the first four.
reconnect p
serve a p
go p
serve a p
go p
serve a p
go p
serve a p
go p
serve a p
go p
serve a p
# a asks for a snapshot: its request is the fifth entry, in the topic's second ledger. No compacted view has it.
snap prices a
# p publishes the others.
go p
serve a p
go p
serve a p
go p
serve a p
go p
serve a p
go p
serve a p
# The first seven entries go to b: there apples are removed, and pears are at 21.
reset prices a b
take prices a b good
receipt prices a b good
read prices a b
take prices a b good
receipt prices a b good
read prices a b
take prices a b good
receipt prices a b good
read prices a b
take prices a b good
receipt prices a b good
read prices a b
take prices a b good
receipt prices a b good
read prices a b
take prices a b good
receipt prices a b good
read prices a b
take prices a b good
receipt prices a b good
read prices a b
take prices a b good
receipt prices a b good
