# A drill: the region east is lost while it is ahead of west. The consumer goes on at west, east comes back, and the consumer could go
# back without getting anything again. Two regions, a topic of orders, a shop that publishes and a billing service that consumes.
geo 1
cluster east
cluster west
topic orders
client shop orders east
client bill orders east
# The shop publishes five orders at east.
do shop produce
do shop pub 0 * - order0
do shop pub 1 * - order1
do shop pub 2 * - order2
do shop pub 3 * - order3
do shop pub 4 * - order4
# Billing consumes them by a replicated subscription. It acknowledges three orders one by one, moves to west, and there acknowledges
# whatever it holds, twice.
do bill sub billing exclusive earliest replicated
do bill flow 100
do bill ack east shop 0
do bill ack east shop 1
do bill ack east shop 2
do bill move west
do bill ackall
do bill ackall
# The shop connects and publishes order0 and order1.
reconnect shop
serve east shop
go shop
serve east shop
go shop
serve east shop
go shop
serve east shop
# Billing connects, subscribes and gives its permits.
reconnect bill
serve east bill
go bill
serve east bill
go bill
serve east bill
# The replicators of both regions begin a session.
reset orders east west
take orders east west good
receipt orders east west good
reset orders west east
take orders west east good
receipt orders west east good
# East asks for a snapshot. The request goes to west behind both orders.
snap orders east
read orders east west
read orders east west
read orders east west
take orders east west good
take orders east west good
take orders east west good
receipt orders east west good
receipt orders east west good
receipt orders east west good
# West answers with its position 0:2; east reads the answer and stores the snapshot: its 0:3 goes with west's 0:2.
read orders west east
read orders west east
read orders west east
read orders west east
take orders west east good
receipt orders west east good
read orders east west
# Behind the snapshot the shop publishes order2 and order3.
go shop
serve east shop
go shop
serve east shop
# East offers all four orders, passes over the three markers, and keeps the snapshot for billing. Billing takes CONNECTED, SUCCESS and
# the four orders.
offer orders east billing
offer orders east billing
offer orders east billing
offer orders east billing
offer orders east billing
offer orders east billing
offer orders east billing
get bill
get bill
get bill
get bill
get bill
get bill
# Billing acknowledges order0 and order1: it has passed the snapshot, so east stores an update that names west's 0:2.
go bill
serve east bill
go bill
serve east bill
# It acknowledges order2 too. No snapshot was behind it, so nobody tells west.
go bill
serve east bill
# East replicates on: order2, order3 and the update reach west. The receipts do not come back any more.
read orders east west
read orders east west
read orders east west
read orders east west
take orders east west good
take orders east west good
take orders east west good
# The shop publishes order4 and has its receipts for all five orders; order4 has not left east.
go shop
serve east shop
get shop
get shop
get shop
get shop
get shop
get shop
get shop
# East is lost here: no event at east follows until it comes back.
# West reads on and comes to the update: it creates the subscription, and passes over what east had passed over, order0 and order1.
read orders west east
read orders west east
read orders west east
# Billing moves: it connects to west, subscribes and gives its permits there.
go bill
serve west bill
serve west bill
serve west bill
# West offers order2, which billing had acknowledged at east, and order3, which it had not. Nothing is left out; order2 comes again.
offer orders west billing
offer orders west billing
offer orders west billing
offer orders west billing
get bill
get bill
get bill
get bill
# Billing acknowledges both. At west its backlog is empty now.
go bill
serve west bill
# East comes back with what it had stored, and settling brings order4 over. What west had already is refused as a duplicate.
restart orders east
settle
# West offers order4, and billing acknowledges it.
offer orders west billing
get bill
go bill
serve west bill
# Now west asks for a snapshot, and settling brings the answer.
snap orders west
settle
# West passes over request and answer, comes to the snapshot, which billing has passed already, and stores an update that names east's
# 1:0; it passes over the update too. Settling brings it to east.
offer orders west billing
offer orders west billing
offer orders west billing
offer orders west billing
settle
