# How many come again, with 0 messages acknowledged since the last snapshot?
# Two orders are published before a snapshot and three behind it. Billing takes only what it acknowledges.
geo 1
cluster east
cluster west
topic orders
client shop orders east
client bill orders east
do shop produce
do shop pub 0 * - order0
do shop pub 1 * - order1
do shop pub 2 * - order2
do shop pub 3 * - order3
do shop pub 4 * - order4
# Billing permits as many orders as it acknowledges, moves to west, and permits a hundred there.
do bill sub billing exclusive earliest replicated
do bill flow 2
do bill ackall
do bill move west
do bill flow 100
# The regions are linked. Order0 and order1 are published, and east takes a snapshot.
reset orders east west
take orders east west good
receipt orders east west good
reset orders west east
take orders west east good
receipt orders west east good
reconnect shop
serve east shop
get shop
go shop
serve east shop
get shop
go shop
serve east shop
get shop
go shop
serve east shop
get shop
reconnect bill
serve east bill
get bill
go bill
serve east bill
get bill
go bill
serve east bill
snap orders east
read orders east west
take orders east west good
receipt orders east west good
read orders west east
read orders east west
take orders east west good
receipt orders east west good
read orders west east
read orders east west
take orders east west good
receipt orders east west good
read orders west east
read orders west east
take orders west east good
receipt orders west east good
read orders east west
read orders east west
# Behind the snapshot order2, order3 and order4 are published and replicated.
go shop
serve east shop
get shop
go shop
serve east shop
get shop
go shop
serve east shop
get shop
read orders east west
take orders east west good
receipt orders east west good
read orders west east
read orders east west
take orders east west good
receipt orders east west good
read orders west east
read orders east west
take orders east west good
receipt orders east west good
read orders west east
# Billing takes order0 and order1 and acknowledges them; the broker passes over the markers and comes to the snapshot.
offer orders east billing
offer orders east billing
offer orders east billing
offer orders east billing
offer orders east billing
get bill
get bill
go bill
serve east bill
read orders east west
take orders east west good
receipt orders east west good
read orders west east
# Of the others it takes none.
# East is lost. Billing moves to west and takes all that comes.
go bill
serve west bill
serve west bill
serve west bill
get bill
get bill
go bill
serve west bill
offer orders west billing
offer orders west billing
offer orders west billing
offer orders west billing
offer orders west billing
get bill
get bill
get bill
