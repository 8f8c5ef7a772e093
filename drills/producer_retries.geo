# A producer has no receipt, and its region is lost. It retries in the other region under another name. Is the order stored once?
# Shop publishes at east; shop2 is the same program, started at west.
geo 1
cluster east
cluster west
topic orders
client shop orders east
client shop2 orders west
client bill orders west
do shop produce
do shop pub 0 * - order0
do shop2 produce
do shop2 pub 0 * - order0
do bill sub billing exclusive earliest replicated
do bill flow 100
do bill ackall
reset orders east west
take orders east west good
receipt orders east west good
reset orders west east
take orders west east good
receipt orders west east good
# The shop publishes order0; east stores it and west has it too. The receipt does not reach the shop.
reconnect shop
serve east shop
go shop
serve east shop
go shop
serve east shop
read orders east west
take orders east west good
receipt orders east west good
# East is lost. The shop's program starts at west as shop2 and publishes the order that it has no receipt for.
reconnect shop2
serve west shop2
get shop2
go shop2
serve west shop2
get shop2
go shop2
serve west shop2
get shop2
# West has the order twice, and billing gets both.
reconnect bill
serve west bill
get bill
go bill
serve west bill
get bill
go bill
serve west bill
offer orders west billing
offer orders west billing
get bill
get bill
go bill
serve west bill
# East comes back. The shop connects and sends what has no receipt: this one is told to be a duplicate, and is not stored again.
restart orders east
settle
reconnect shop
serve east shop
serve east shop
serve east shop
get shop
get shop
get shop
get shop
get shop
get shop
