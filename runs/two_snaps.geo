# A snapshot is not asked for while one is being made.
geo 1
cluster a
cluster b
topic t
client c t a
do c sub s1 exclusive earliest replicated
reconnect c
serve a c
go c
serve a c
snap t a
snap t a
