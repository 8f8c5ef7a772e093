# Orders come in a burst, and the link is slow. How much can come again?
geo 1
cluster east
cluster west
topic orders
client shop orders east
client bill orders east
do shop produce
do shop pub 0 * - order0
do shop pub 1 * - order1
do shop pub 2 * - order2
do shop pub 3 * - order3
do bill sub billing exclusive earliest replicated
do bill flow 100
do bill ackall
do bill move west
reset orders east west
take orders east west good
receipt orders east west good
reset orders west east
take orders west east good
receipt orders west east good
reconnect shop
serve east shop
get shop
go shop
serve east shop
get shop
reconnect bill
serve east bill
get bill
go bill
serve east bill
get bill
go bill
serve east bill
# A snapshot is asked for before the burst. The link is slow: the request waits on its way.
snap orders east
read orders east west
# The burst comes. A second snapshot cannot begin while the first one is in the making.
go shop
serve east shop
get shop
go shop
serve east shop
get shop
snap orders east
go shop
serve east shop
get shop
go shop
serve east shop
get shop
# The link is as before, and the snapshot ends, behind the burst. It speaks of what stood before its request.
take orders east west good
read orders east west
take orders east west good
receipt orders east west good
read orders west east
read orders east west
take orders east west good
receipt orders east west good
read orders west east
read orders east west
take orders east west good
receipt orders east west good
read orders west east
take orders west east good
receipt orders west east good
read orders east west
take orders east west good
receipt orders east west good
read orders west east
read orders east west
receipt orders east west good
read orders west east
read orders east west
read orders west east
offer orders east billing
offer orders east billing
offer orders east billing
offer orders east billing
offer orders east billing
offer orders east billing
offer orders east billing
get bill
get bill
get bill
get bill
go bill
serve east bill
read orders east west
take orders east west good
receipt orders east west good
read orders west east
# Billing moves to west: all that was published behind the request comes again.
go bill
serve west bill
serve west bill
serve west bill
get bill
get bill
offer orders west billing
offer orders west billing
offer orders west billing
offer orders west billing
offer orders west billing
get bill
get bill
get bill
