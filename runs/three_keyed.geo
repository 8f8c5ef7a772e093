# Three consumers share by key: the number of ab is 3105 and that of q_7 is 46057, so they go to the first and the second.
geo 1
cluster a
cluster b
topic t
client p t a
client c t a
client d t a
client e t a
do p produce
do p pub 0 * ab m0
do p pub 1 * q_7 m1
do c sub s keyshared earliest local
do c flow 10
do d sub s keyshared earliest local
do d flow 10
do e sub s keyshared earliest local
do e flow 10
reconnect p
serve a p
go p
serve a p
go p
serve a p
go p
serve a p
reconnect c
serve a c
go c
serve a c
go c
serve a c
reconnect d
serve a d
go d
serve a d
go d
serve a d
reconnect e
serve a e
go e
serve a e
go e
serve a e
offer t a s
offer t a s
get c
get c
get c
get d
get d
get d
get e
get e
