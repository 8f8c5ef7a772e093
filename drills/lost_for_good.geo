# A region is lost for good. Who has what, and what is never had?
# Three regions. Order2 has reached north alone, order3 and order4 have not left east.
geo 1
cluster east
cluster north
cluster west
topic orders
client shop orders east
client shop2 orders north
client bill orders east
do shop produce
do shop pub 0 * - order0
do shop pub 1 * - order1
do shop pub 2 * - order2
do shop pub 3 * - order3
do shop pub 4 * - order4
do shop2 produce
do shop2 pub 0 * - walkin0
do bill sub billing exclusive earliest replicated
do bill flow 100
do bill ack east shop 0
do bill ack east shop 1
do bill ack east shop 2
do bill move north
do bill ackall
reset orders east north
take orders east north good
receipt orders east north good
reset orders north east
take orders north east good
receipt orders north east good
reset orders east west
take orders east west good
receipt orders east west good
reset orders west east
take orders west east good
receipt orders west east good
reset orders north west
take orders north west good
receipt orders north west good
reset orders west north
take orders west north good
receipt orders west north good
reconnect shop
serve east shop
get shop
go shop
serve east shop
get shop
go shop
serve east shop
get shop
go shop
serve east shop
get shop
reconnect bill
serve east bill
get bill
go bill
serve east bill
get bill
go bill
serve east bill
# A snapshot of three regions ends, billing passes it, and both others hear of it.
snap orders east
read orders east north
take orders east north good
receipt orders east north good
read orders east west
take orders east west good
receipt orders east west good
read orders north east
read orders north west
read orders west east
read orders west north
read orders east north
take orders east north good
receipt orders east north good
read orders east west
take orders east west good
receipt orders east west good
read orders north east
read orders north west
read orders west east
read orders west north
read orders east north
take orders east north good
receipt orders east north good
read orders east west
take orders east west good
receipt orders east west good
read orders north east
read orders north west
read orders west east
read orders west north
read orders north east
take orders north east good
receipt orders north east good
read orders north west
read orders west east
take orders west east good
receipt orders west east good
read orders west north
read orders east north
read orders east west
read orders east north
read orders east west
read orders east north
take orders east north good
receipt orders east north good
read orders east west
take orders east west good
receipt orders east west good
read orders north east
read orders north west
read orders west east
read orders west north
read orders north east
take orders north east good
receipt orders north east good
read orders north west
read orders west east
take orders west east good
receipt orders west east good
read orders west north
read orders east north
read orders east west
read orders east north
read orders east west
read orders east north
read orders east west
offer orders east billing
offer orders east billing
offer orders east billing
offer orders east billing
offer orders east billing
offer orders east billing
offer orders east billing
offer orders east billing
offer orders east billing
get bill
get bill
go bill
serve east bill
go bill
serve east bill
read orders east north
take orders east north good
receipt orders east north good
read orders east west
take orders east west good
receipt orders east west good
read orders north east
read orders north west
read orders west east
read orders west north
# Order2 comes to north alone, and billing acknowledges it at east. Order3 and order4 stay at east, with receipts.
go shop
serve east shop
get shop
read orders east north
take orders east north good
receipt orders east north good
offer orders east billing
offer orders east billing
get bill
go bill
serve east bill
go shop
serve east shop
get shop
go shop
serve east shop
get shop
# East is lost for good.
# North does not pass order2 on: a region replicates what was published there, and nothing else. The two differ from now on.
read orders north west
# Billing goes on at north. Order2 comes again; order3 and order4 come to nobody.
go bill
serve north bill
serve north bill
serve north bill
get bill
get bill
offer orders north billing
offer orders north billing
offer orders north billing
offer orders north billing
offer orders north billing
get bill
go bill
serve north bill
# What is published at north reaches west.
reconnect shop2
serve north shop2
get shop2
go shop2
serve north shop2
get shop2
go shop2
serve north shop2
get shop2
read orders north west
take orders north west good
receipt orders north west good
# North asks for a snapshot. East does not answer, so it waits for ever, and west never hears of what is acknowledged at north.
snap orders north
read orders north west
take orders north west good
receipt orders north west good
read orders west north
read orders west north
read orders west north
take orders west north good
receipt orders west north good
read orders north west
offer orders north billing
offer orders north billing
offer orders north billing
get bill
