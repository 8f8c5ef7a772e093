# A broker that stops while it answers a snapshot's request answers it twice. The second answer must not pass for one of the
# second round: the snapshot would then cover a message at b that a does not have, and b would pass over it unread.
# The schedule was found by a search, for a machine in which it does pass. A line that finds nothing to do here is idle.
# Three clusters, a topic with ledgers of 50 entries, a producer p at c, and a consumer d at a.
geo 1
ledger 50
cluster a
cluster b
cluster c
topic t
client p t c
client d t a
# p attaches its producer, and publishes f.
do p produce
do p pub 0 * - f
# d subscribes by the name s, Failover, replicated.
do d sub s failover earliest replicated
# p connects to c, d connects to a.
reconnect p
serve c p
reconnect d
serve a d
# d subscribes at a, and p attaches its producer at c.
go d
serve a d
go p
serve c p
# Each of the six replicators begins session 1: a to b,
reset t a b
take t a b good
receipt t a b good
# a to c,
reset t a c
take t a c good
receipt t a c good
# b to a,
reset t b a
take t b a good
receipt t b a good
# b to c,
reset t b c
take t b c good
receipt t b c good
# c to a,
reset t c a
take t c a good
receipt t c a good
# and c to b.
reset t c b
take t c b good
receipt t c b good
# a asks for a snapshot: it stores the request a:0:0, for all clusters.
snap t a
# a sends the request to b, which stores it as 0:0,
read t a b
take t a b good
receipt t a b good
# and to c, which stores it as 0:0.
read t a c
take t a c good
receipt t a c good
# c reads the request and stores its answer, which names 0:0, but stops before its cursor has passed the request; it restarts with
# a new ledger, and all its sessions are gone.
halt 1 read t c a
# The replicators from and to c begin session 2, first c to a,
reset t c a
take t c a good
receipt t c a good
# and a to c.
reset t a c
take t a c good
receipt t a c good
# c reads the request again, and answers again: this answer names 0:1, the first answer.
read t c a
# Then c to b,
reset t c b
take t c b good
receipt t c b good
# and b to c.
reset t b c
take t b c good
receipt t b c good
# c sends its first answer to a,
read t c a
take t c a good
receipt t c a good
# and its second one. Nothing is left to send.
read t c a
take t c a good
receipt t c a good
read t c a
take t c a good
receipt t c a good
# p connects again, attaches its producer, and publishes f; c stores it as 1:1, behind both answers.
reconnect p
serve c p
serve c p
go p
serve c p
# c passes over the request and both answers, which are not for b, and sends f; b stores it as 0:1. f does not go to a.
read t c b
take t c b good
receipt t c b good
read t c b
take t c b good
receipt t c b good
read t c b
take t c b good
receipt t c b good
read t c b
take t c b good
receipt t c b good
read t c b
take t c b good
receipt t c b good
read t c b
take t c b good
receipt t c b good
# b reads the request and answers it behind f: its answer names b's 0:1, which is f. b sends the answer to a.
read t b a
read t b a
take t b a good
receipt t b a good
read t b a
take t b a good
receipt t b a good
# a reads c's first answer: it counts in round one, with c's 0:0.
read t a c
# a passes over c's answers on its way to b's, which counts too: all have answered, and round two begins with the request a:0:0/2. a
# sends it to b.
read t a b
read t a b
read t a b
read t a b
read t a b
read t a b
read t a b
take t a b good
receipt t a b good
read t a b
take t a b good
receipt t a b good
read t a b
take t a b good
receipt t a b good
read t a b
take t a b good
receipt t a b good
# b answers the second request, and sends the answer to a.
read t b a
read t b a
read t b a
read t b a
take t b a good
receipt t b a good
read t b a
take t b a good
receipt t b a good
# a reads c's second answer. It has the id of round one, a:0:0, so it has no effect: c has not answered round two. It would do so
# behind f, and f would come to a before its answer.
read t a c
read t a c
# a reads b's answer of round two. The snapshot is still waiting for c.
read t a b
read t a b
read t a b
read t a b
read t a b
read t a b
# s passes over six markers, and no snapshot is among them. So there is no update either.
offer t a s
offer t a s
offer t a s
offer t a s
offer t a s
offer t a s
offer t a s
offer t a s
offer t a s
offer t a s
offer t a s
offer t a s
# Nothing goes from a to b: with the doubled answer counted, the update would go now,
read t a b
take t a b good
receipt t a b good
read t a b
take t a b good
receipt t a b good
read t a b
take t a b good
receipt t a b good
read t a b
take t a b good
receipt t a b good
read t a b
take t a b good
receipt t a b good
read t a b
take t a b good
receipt t a b good
# and b would read it here, create s, and pass over f, which nobody has acknowledged.
read t b a
read t b a
read t b a
read t b a
read t b a
read t b a
read t b a
read t b a
