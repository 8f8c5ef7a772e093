geo 1
cluster a
cluster b
topic t
client p t a
do p produce
do p pub 0 * k1 a
do p pub 1 * k2 b
do p pub 2 * k1 c
do p pub 3 * - n
do p pub 4 * k2 
reconnect p
serve a p
go p
serve a p
go p
serve a p
go p
serve a p
go p
serve a p
go p
serve a p
go p
serve a p
