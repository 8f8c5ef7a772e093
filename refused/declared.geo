geo 1
cluster a
cluster b
topic t
client p t a
