# An exclusive consumer is attached: neither one of another kind nor a second exclusive one may join it.
geo 1
cluster a
cluster b
topic t
client c t a
client d t a
client e t a
do c sub s exclusive earliest local
do d sub s shared earliest local
do e sub s exclusive earliest local
reconnect c
serve a c
go c
serve a c
reconnect d
serve a d
go d
serve a d
get d
get d
reconnect e
serve a e
go e
serve a e
get e
get e
