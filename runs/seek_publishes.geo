# A seek to the end passes a cached snapshot, and so publishes its update.
geo 1
cluster a
cluster b
topic t
client p t a
client c t a
do p produce
do p pub 0 * - m0
do c sub s1 exclusive earliest replicated
do c flow 10
reconnect p
serve a p
go p
serve a p
go p
serve a p
reconnect c
serve a c
go c
serve a c
go c
serve a c
snap t a
reset t a b
take t a b good
receipt t a b good
reset t b a
take t b a good
receipt t b a good
read t a b
read t a b
take t a b good
take t a b good
receipt t a b good
receipt t a b good
read t b a
read t b a
read t b a
take t b a good
receipt t b a good
read t a b
offer t a s1
offer t a s1
offer t a s1
offer t a s1
seek t a s1 end
