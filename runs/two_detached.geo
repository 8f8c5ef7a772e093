# Two consumers of a shared subscription leave one after the other. What was out with the first is still due when the
# second has left, so the consumer that comes back is given the first message again.
geo 1
cluster a
cluster b
topic t
client p t a
client c t a
client d t a
do p produce
do p pub 0 * - m0
do p pub 1 * - m1
do c sub s shared earliest local
do c flow 1
do d sub s shared earliest local
do d flow 1
reconnect p
serve a p
go p
serve a p
go p
serve a p
go p
serve a p
reconnect c
serve a c
go c
serve a c
go c
serve a c
reconnect d
serve a d
go d
serve a d
go d
serve a d
offer t a s
offer t a s
drop a c
drop a d
reconnect c
serve a c
serve a c
serve a c
offer t a s
offer t a s
get c
get c
get c
get c
get c
get c
