# A message is replicated to the clusters of its list alone.
# Three clusters, a topic, and a client at a.
geo 1
cluster a
cluster b
cluster c
topic t
client p t a
# It attaches its producer, and publishes a message for b and c with the key k1, one for b alone without text, one for all.
do p produce
do p pub 0 c,b k1 x
do p pub 1 b - 
do p pub 2 * - hi there
# p connects, attaches its producer and publishes; a stores the three.
reconnect p
serve a p
go p
serve a p
go p
serve a p
go p
serve a p
go p
serve a p
# a's replicator to c begins session 1: c takes the packet that opens it, a takes c's answer.
reset t a c
take t a c good
receipt t a c good
# a reads its three entries: the first and the third are sent, the second is not for c and is passed over.
read t a c
read t a c
read t a c
# c stores two entries, and a takes two receipts: all three entries are acknowledged for c.
take t a c good
take t a c good
receipt t a c good
receipt t a c good
