# How far behind is the other region? One state is saved as east is lost, and five endings are tried from it.
# The fourth: a planned move. Billing acknowledges what it has, a snapshot is taken behind it, and all of it comes over.
geo 1
cluster east
cluster west
topic orders
client shop orders east
client bill orders east
client bill2 orders west
do shop produce
do shop pub 0 * - order0
do shop pub 1 * - order1
do shop pub 2 * - order2
do shop pub 3 * - order3
do shop pub 4 * - order4
do shop pub 5 * - order5
# Billing runs at east; a second service of the same subscription stands ready at west.
do bill sub billing exclusive earliest replicated
do bill flow 100
do bill ack east shop 0
do bill ack east shop 1
do bill ack east shop 2
do bill ackall
do bill2 sub billing exclusive earliest replicated
do bill2 flow 100
# The regions are linked, order0 and order1 are published, billing subscribes, and east takes a snapshot.
reset orders east west
take orders east west good
receipt orders east west good
reset orders west east
take orders west east good
receipt orders west east good
reconnect shop
serve east shop
get shop
go shop
serve east shop
get shop
go shop
serve east shop
get shop
go shop
serve east shop
get shop
reconnect bill
serve east bill
get bill
go bill
serve east bill
get bill
go bill
serve east bill
snap orders east
read orders east west
take orders east west good
receipt orders east west good
read orders west east
read orders east west
take orders east west good
receipt orders east west good
read orders west east
read orders east west
take orders east west good
receipt orders east west good
read orders west east
read orders west east
take orders west east good
receipt orders west east good
read orders east west
read orders east west
# Order2 and order3 are published and replicated. Billing acknowledges order0 and order1, and west hears of it.
go shop
serve east shop
get shop
go shop
serve east shop
get shop
read orders east west
take orders east west good
receipt orders east west good
read orders east west
take orders east west good
receipt orders east west good
offer orders east billing
offer orders east billing
offer orders east billing
offer orders east billing
offer orders east billing
offer orders east billing
offer orders east billing
get bill
get bill
get bill
get bill
go bill
serve east bill
go bill
serve east bill
read orders east west
take orders east west good
receipt orders east west good
read orders west east
read orders west east
read orders west east
# Billing acknowledges order2, and order4 and order5 are published. None of it leaves east.
go bill
serve east bill
go shop
serve east shop
get shop
go shop
serve east shop
get shop
# Everything stops. Here the state is saved.
stop
# Everything comes over. Billing connects at east, gets what it had not acknowledged, and acknowledges all of it.
settle
reconnect bill
serve east bill
serve east bill
serve east bill
get bill
get bill
offer orders east billing
offer orders east billing
offer orders east billing
offer orders east billing
get bill
get bill
get bill
go bill
serve east bill
# All comes over again, and east takes a last snapshot. Billing has passed it, so east tells west.
settle
snap orders east
settle
offer orders east billing
offer orders east billing
offer orders east billing
offer orders east billing
settle
# East is shut down. At west nothing comes again.
reconnect bill2
serve west bill2
get bill2
go bill2
serve west bill2
get bill2
go bill2
serve west bill2
offer orders west billing
offer orders west billing
