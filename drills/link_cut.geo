# Only the link is cut: both regions go on, each by itself. What do consumers get meanwhile, and what is there when the link is back?
# The shop publishes at east, the kiosk at west. Billing consumes at east; during the cut a second billing service starts at west.
geo 1
cluster east
cluster west
topic orders
client shop orders east
client kiosk orders west
client bill orders east
client bill2 orders west
do shop produce
do shop pub 0 * - order0
do shop pub 1 * - order1
do shop pub 2 * - order2
do kiosk produce
do kiosk pub 0 * - walkin0
# Both services use one replicated subscription.
do bill sub billing exclusive earliest replicated
do bill flow 100
do bill ack east shop 0
do bill ack east shop 1
do bill2 sub billing exclusive earliest replicated
do bill2 flow 100
do bill2 ackall
# The regions are linked; order0 is published, a snapshot is taken, order0 is consumed and acknowledged, and west hears of it.
reset orders east west
take orders east west good
receipt orders east west good
reset orders west east
take orders west east good
receipt orders west east good
reconnect shop
serve east shop
get shop
go shop
serve east shop
get shop
go shop
serve east shop
get shop
reconnect bill
serve east bill
get bill
go bill
serve east bill
get bill
go bill
serve east bill
snap orders east
read orders east west
take orders east west good
receipt orders east west good
read orders west east
read orders east west
take orders east west good
receipt orders east west good
read orders west east
read orders west east
take orders west east good
receipt orders west east good
read orders east west
read orders east west
offer orders east billing
offer orders east billing
offer orders east billing
offer orders east billing
get bill
go bill
serve east bill
read orders east west
take orders east west good
receipt orders east west good
read orders west east
# The shop publishes order1 and order2. West has order1; order2 is on its way when the link is cut.
go shop
serve east shop
get shop
read orders east west
take orders east west good
receipt orders east west good
go shop
serve east shop
get shop
read orders east west
take orders east west lost
# During the cut billing gets both at east and acknowledges order1 there. The kiosk publishes at west.
offer orders east billing
offer orders east billing
offer orders east billing
get bill
get bill
go bill
serve east bill
reconnect kiosk
serve west kiosk
get kiosk
go kiosk
serve west kiosk
get kiosk
go kiosk
serve west kiosk
get kiosk
# The second service starts at west, while the first one goes on at east: it gets order1, which the first one acknowledged.
reconnect bill2
serve west bill2
get bill2
go bill2
serve west bill2
get bill2
go bill2
serve west bill2
offer orders west billing
offer orders west billing
offer orders west billing
offer orders west billing
get bill2
get bill2
go bill2
serve west bill2
# The link is back: each region gets what it lacks, order2 once. Nothing that a region has is stored there a second time.
reset orders east west
take orders east west good
receipt orders east west good
reset orders west east
take orders west east good
receipt orders west east good
read orders east west
take orders east west good
receipt orders east west good
read orders west east
read orders west east
take orders west east good
receipt orders west east good
read orders east west
read orders west east
# East and west have the same messages now, in different order. At east billing gets what the kiosk published, at west order2.
offer orders east billing
get bill
offer orders west billing
get bill2
