# A region is lost while it is ahead: how many orders come again, and is one missing?
# Two regions, a topic of orders, a shop that publishes and a billing service that consumes, both at east.
geo 1
cluster east
cluster west
topic orders
client shop orders east
client bill orders east
# The shop publishes six orders.
do shop produce
do shop pub 0 * - order0
do shop pub 1 * - order1
do shop pub 2 * - order2
do shop pub 3 * - order3
do shop pub 4 * - order4
do shop pub 5 * - order5
# Billing acknowledges four of them, moves to west, and there acknowledges whatever it holds.
do bill sub billing exclusive earliest replicated
do bill flow 100
do bill ack east shop 0
do bill ack east shop 1
do bill ack east shop 2
do bill ack east shop 3
do bill move west
do bill ackall
# The regions are linked. The shop publishes order0 and order1, and billing subscribes.
reset orders east west
take orders east west good
receipt orders east west good
reset orders west east
take orders west east good
receipt orders west east good
reconnect shop
serve east shop
get shop
go shop
serve east shop
get shop
go shop
serve east shop
get shop
go shop
serve east shop
get shop
reconnect bill
serve east bill
get bill
go bill
serve east bill
get bill
go bill
serve east bill
# East takes a snapshot: it asks, west answers, and both positions stand in east's topic.
snap orders east
read orders east west
take orders east west good
receipt orders east west good
read orders west east
read orders east west
take orders east west good
receipt orders east west good
read orders west east
read orders east west
take orders east west good
receipt orders east west good
read orders west east
read orders west east
take orders west east good
receipt orders west east good
read orders east west
read orders east west
# Behind the snapshot the shop publishes order2, order3 and order4. All five reach west, and billing gets them.
go shop
serve east shop
get shop
go shop
serve east shop
get shop
go shop
serve east shop
get shop
read orders east west
take orders east west good
receipt orders east west good
read orders east west
take orders east west good
receipt orders east west good
read orders east west
take orders east west good
receipt orders east west good
offer orders east billing
offer orders east billing
offer orders east billing
offer orders east billing
offer orders east billing
offer orders east billing
offer orders east billing
offer orders east billing
get bill
get bill
get bill
get bill
get bill
# Billing acknowledges order0 and order1: it has passed the snapshot, so east stores an update for west.
go bill
serve east bill
go bill
serve east bill
read orders east west
take orders east west good
receipt orders east west good
read orders west east
read orders west east
read orders west east
read orders west east
# Billing acknowledges order2 and order3 behind the snapshot; nobody tells west. The shop publishes order5, which does not leave east.
go bill
serve east bill
go bill
serve east bill
go shop
serve east shop
get shop
# East is lost. Billing moves to west and gets what west does not know as acknowledged.
go bill
serve west bill
serve west bill
serve west bill
get bill
get bill
offer orders west billing
offer orders west billing
offer orders west billing
offer orders west billing
offer orders west billing
get bill
get bill
get bill
go bill
serve west bill
# East comes back, and settling brings order5 over.
restart orders east
settle
offer orders west billing
get bill
