geo 1
ledger 2
cluster a
cluster b
topic t
client p t a
do p produce
do p pub 0 * - a
do p pub 1 * - b
do p pub 2 * - c
do p pub 3 * - d
do p pub 4 * - e
reconnect p
serve a p
go p
serve a p
go p
serve a p
go p
serve a p
go p
serve a p
go p
serve a p
go p
serve a p
