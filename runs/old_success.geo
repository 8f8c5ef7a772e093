# The answer to an older session does not open the current one.
geo 1
cluster a
cluster b
topic t
reset t a b
take t a b good
reset t a b
receipt t a b good
