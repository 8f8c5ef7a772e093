# A second sub line ends the flow line of the first: after a reconnect the consumer has no permit.
geo 1
cluster a
cluster b
topic t
client p t a
client c t a
do p produce
do p pub 0 * - m0
do c sub s1 exclusive earliest local
do c flow 5
do c sub s2 exclusive earliest local
reconnect p
serve a p
go p
serve a p
go p
serve a p
reconnect c
serve a c
go c
serve a c
go c
serve a c
go c
serve a c
reconnect c
serve a c
serve a c
serve a c
offer t a s2
