# A halted read answers a request twice. The second answer of b does not stand for that of c.
geo 1
cluster a
cluster b
cluster c
topic t
client k t a
do k sub s1 exclusive earliest replicated
reconnect k
serve a k
go k
serve a k
snap t a
reset t a b
take t a b good
receipt t a b good
reset t b a
take t b a good
receipt t b a good
read t a b
take t a b good
halt 1 read t b a
reset t b a
take t b a good
receipt t b a good
read t b a
read t b a
read t b a
take t b a good
take t b a good
read t a b
read t a b
