# The first 13 events of examples/one_message.geo: a has read the message for b, which did not take it.
geo 1
cluster a
cluster b
topic t
client p t a
do p produce
do p pub 0 * - hi
reconnect p
serve a p
go p
serve a p
go p
serve a p
get p
get p
get p
reset t a b
take t a b good
receipt t a b good
read t a b
# Everything stops, and the packet is gone; settling sends it once more.
stop
settle
