# One acknowledgement passes two cached snapshots: the later one is told, once, and both are given up.
geo 1
cluster a
cluster b
topic t
client p t a
client c t a
do p produce
do p pub 0 * - m0
do p pub 1 * - m1
do c sub s1 exclusive earliest replicated
do c flow 10
do c ack a p 0
do c ack a p 1
reconnect p
serve a p
go p
serve a p
go p
serve a p
reconnect c
serve a c
go c
serve a c
go c
serve a c
reset t a b
take t a b good
receipt t a b good
reset t b a
take t b a good
receipt t b a good
read t a b
take t a b good
receipt t a b good
read t b a
snap t a
read t a b
take t a b good
receipt t a b good
read t b a
read t b a
take t b a good
receipt t b a good
read t a b
read t a b
snap t a
read t a b
take t a b good
receipt t a b good
read t b a
read t b a
take t b a good
receipt t b a good
read t a b
read t a b
go p
serve a p
offer t a s1
offer t a s1
offer t a s1
offer t a s1
offer t a s1
offer t a s1
offer t a s1
offer t a s1
get c
get c
get c
get c
go c
serve a c
go c
serve a c
