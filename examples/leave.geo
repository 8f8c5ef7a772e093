# How clients leave: a producer is closed, a consumer is closed, a subscription is deleted.
# Two clusters, a topic, and three clients at a: p publishes, c and d consume.
geo 1
cluster a
cluster b
topic t
client p t a
client c t a
client d t a
# p attaches its producer, publishes m0, closes its producer, and sends a PING.
do p produce
do p pub 0 * - m0
do p closep
do p ping
# c and d subscribe to s, Shared, with five permits each. c closes its consumer.
do c sub s shared earliest local
do c flow 5
do c close
# d acknowledges m0, and deletes the subscription.
do d sub s shared earliest local
do d flow 5
do d ack a p 0
do d unsub
# p connects, attaches its producer and publishes; a stores m0.
reconnect p
serve a p
go p
serve a p
go p
serve a p
# p can't close its producer yet: m0 has no receipt. The line is idle.
go p
# p takes CONNECTED, PRODUCER_SUCCESS and the receipt.
get p
get p
get p
# Now it closes its producer.
go p
serve a p
# It sends PING.
go p
serve a p
# It takes SUCCESS and PONG.
get p
get p
# c connects, subscribes and gives its permits.
reconnect c
serve a c
go c
serve a c
go c
serve a c
# d does the same; it comes second in order.
reconnect d
serve a d
go d
serve a d
go d
serve a d
# m0 is offered to c, which takes CONNECTED, SUCCESS and m0.
offer t a s
get c
get c
get c
# c closes its consumer without an acknowledgement, and takes SUCCESS.
go c
serve a c
get c
# So m0 is due again, and is offered to d, which takes CONNECTED, SUCCESS and m0.
offer t a s
get d
get d
get d
# d acknowledges it.
go d
serve a d
# Nobody else is attached, so d may delete s. It takes SUCCESS.
go d
serve a d
get d
# s is gone: the line is idle.
offer t a s
