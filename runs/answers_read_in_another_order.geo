# The answer of c is stored after that of b and read before it. The cut keeps the greatest local position, not the last.
geo 1
cluster a
cluster b
cluster c
topic t
client c t a
client q t c
do c sub s1 exclusive earliest replicated
do q produce
do q pub 0 * - m
reconnect c
serve a c
go c
serve a c
snap t a
reset t a b
take t a b good
receipt t a b good
reset t a c
take t a c good
receipt t a c good
reset t b a
take t b a good
receipt t b a good
reset t c a
take t c a good
receipt t c a good
reset t c b
take t c b good
receipt t c b good
read t a c
take t a c good
read t c a
read t c a
take t c a good
read t a c
reconnect q
serve c q
go q
serve c q
go q
serve c q
read t c b
read t c b
read t c b
take t c b good
read t a b
take t a b good
read t b a
read t b a
read t b a
take t b a good
read t a b
read t a b
read t a b
read t a b
take t a b good
read t b a
read t b a
read t b a
take t b a good
read t a c
read t a c
read t a c
read t a c
take t a c good
read t c a
read t c a
read t c a
read t c a
take t c a good
take t c a good
read t a c
read t a c
read t a c
read t a c
read t a c
read t a c
read t a b
