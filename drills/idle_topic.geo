# A snapshot is taken where messages come, and then none comes any more. Is what billing acknowledges later told?
geo 1
cluster east
cluster west
topic orders
client shop orders east
client bill orders east
do shop produce
do shop pub 0 * - order0
do shop pub 1 * - order1
do bill sub billing exclusive earliest replicated
do bill flow 100
do bill ackall
do bill move west
reset orders east west
take orders east west good
receipt orders east west good
reset orders west east
take orders west east good
receipt orders west east good
reconnect shop
serve east shop
get shop
go shop
serve east shop
get shop
go shop
serve east shop
get shop
go shop
serve east shop
get shop
# No subscription is there yet, so no snapshot is asked for.
snap orders east
read orders east west
take orders east west good
receipt orders east west good
read orders west east
read orders east west
take orders east west good
receipt orders east west good
read orders west east
# Billing begins, takes both orders and acknowledges them. Nothing is published any more, so nobody asks for a snapshot.
reconnect bill
serve east bill
get bill
go bill
serve east bill
get bill
go bill
serve east bill
offer orders east billing
offer orders east billing
get bill
get bill
go bill
serve east bill
# Billing moves to west: both come again, whenever that is.
go bill
serve west bill
serve west bill
serve west bill
get bill
get bill
offer orders west billing
offer orders west billing
get bill
get bill
