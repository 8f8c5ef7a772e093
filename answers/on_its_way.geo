geo 1
cluster a
cluster b
topic t
client p t a
do p produce
do p pub 0 * - hi
reconnect p
serve a p
go p
serve a p
go p
