# Everything stops at once: what was stored stays, what nobody took is gone, and all of it comes after all.
# Two clusters, a topic with ledgers of two entries, and two clients at a: p publishes, c consumes.
geo 1
ledger 2
cluster a
cluster b
topic t
client p t a
client c t a
# p attaches its producer, and publishes m0 to m3.
do p produce
do p pub 0 * - m0
do p pub 1 * - m1
do p pub 2 * - m2
do p pub 3 * - m3
# c subscribes by the name s, permits ten messages, and acknowledges all that it holds.
do c sub s exclusive earliest local
do c flow 10
do c ackall
# p connects, attaches its producer and publishes; a stores m0 and m1 in ledger 0, which is full then, and m2 in ledger 1.
reconnect p
serve a p
go p
serve a p
go p
serve a p
go p
serve a p
go p
serve a p
# p takes CONNECTED, PRODUCER_SUCCESS and the receipt of m0.
get p
get p
get p
# c connects, subscribes and gives its permits.
reconnect c
serve a c
go c
serve a c
go c
serve a c
# a offers m0 and m1; c takes CONNECTED, SUCCESS and m0. m1 is on its way to c.
offer t a s
offer t a s
get c
get c
get c
# a's replicator to b begins session 1, and sends m0 and m1; b stores m0. m1 is on its way to b, and a receipt to a.
reset t a b
take t a b good
receipt t a b good
read t a b
read t a b
take t a b good
# p sends m3, which is on its way to a.
go p
# Everything stops. Both brokers start again, each with a new ledger, and nothing is on its way any more.
stop
# So these four lines are idle.
serve a p
get c
take t a b good
receipt t a b good
# p connects again, and sends m1, m2 and m3, of which it has no receipt. a has m1 and m2, and stores m3 in ledger 2.
reconnect p
serve a p
serve a p
serve a p
serve a p
serve a p
# p takes CONNECTED, PRODUCER_SUCCESS, two receipts of duplicates, and the receipt of m3.
get p
get p
get p
get p
get p
# c connects again, and so subscribes and gives its permits again.
reconnect c
serve a c
serve a c
serve a c
# m0 and m1 were out with c and not acknowledged, so all four messages are offered.
offer t a s
offer t a s
offer t a s
offer t a s
# c takes CONNECTED, SUCCESS and the four messages,
get c
get c
get c
get c
get c
get c
# and acknowledges them.
go c
serve a c
# Settling begins both sessions anew and brings the rest to b. b refuses m0 as a duplicate.
settle
