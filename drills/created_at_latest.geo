# A consumer subscribes at Latest, and no update has come to the other region yet. What does it miss at a failover?
geo 1
cluster east
cluster west
topic orders
client shop orders east
client bill orders east
do shop produce
do shop pub 0 * - order0
do shop pub 1 * - order1
do shop pub 2 * - order2
# Billing begins at the end of the topic, as the client's default is.
do bill sub billing exclusive latest replicated
do bill flow 100
do bill ack east shop 0
do bill move west
# Billing subscribes at east while the topic is empty, so it is to get all that comes.
reset orders east west
take orders east west good
receipt orders east west good
reset orders west east
take orders west east good
receipt orders west east good
reconnect bill
serve east bill
get bill
go bill
serve east bill
get bill
go bill
serve east bill
# The shop publishes order0 and order1, which reach west. No snapshot is taken.
reconnect shop
serve east shop
get shop
go shop
serve east shop
get shop
go shop
serve east shop
get shop
go shop
serve east shop
get shop
read orders east west
take orders east west good
receipt orders east west good
read orders east west
take orders east west good
receipt orders east west good
# Billing takes both and acknowledges order0.
offer orders east billing
offer orders east billing
get bill
get bill
go bill
serve east bill
# East is lost. Billing moves to west, where the subscription is new: it begins behind order1, which nobody acknowledged.
go bill
serve west bill
serve west bill
serve west bill
get bill
get bill
# East comes back. Order2 is published and comes to west, and that is all that billing gets there. At east order1 is in the backlog.
restart orders east
settle
reconnect shop
serve east shop
serve east shop
get shop
get shop
go shop
serve east shop
get shop
read orders east west
take orders east west good
receipt orders east west good
settle
offer orders west billing
get bill
