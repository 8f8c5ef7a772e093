geo 1
ledger 7
cluster a
cluster b
topic t
client p t a
client q t b
do p produce
do p pub 0 * - hi
do p pub 1 * - ho
do q sub s exclusive earliest replicated
do q flow 5
reconnect p
serve a p
go p
serve a p
go p
serve a p
get p
get p
get p
reset t a b
take t a b good
receipt t a b good
read t a b
take t a b good
