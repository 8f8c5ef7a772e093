# A reconnect forgets what is held, so the acknowledgement must wait until the message comes again.
geo 1
cluster a
cluster b
topic t
client p t a
client c t a
do p produce
do p pub 0 * - m0
do c sub s exclusive earliest local
do c flow 5
do c ack a p 0
reconnect p
serve a p
go p
serve a p
go p
serve a p
reconnect c
serve a c
go c
serve a c
go c
serve a c
offer t a s
get c
get c
get c
reconnect c
go c
