# A planned switchover while the shop goes on publishing: at north comes what is new, and nothing that was acknowledged at east.
geo 1
cluster east
cluster north
cluster west
topic orders
client shop orders east
client kiosk orders west
client bill orders east
client bill2 orders north
do shop produce
do shop pub 0 * - order0
do shop pub 1 * - order1
do shop pub 2 * - order2
do kiosk produce
do kiosk pub 0 * - sale0
do kiosk pub 1 * - sale1
do bill sub billing exclusive earliest replicated
do bill flow 100
do bill ackall
do bill2 sub billing exclusive earliest replicated
do bill2 flow 100
# The shop publishes order0 at east, the kiosk its two at west; all comes over.
reconnect shop
serve east shop
get shop
go shop
serve east shop
get shop
go shop
serve east shop
get shop
reconnect kiosk
serve west kiosk
get kiosk
go kiosk
serve west kiosk
get kiosk
go kiosk
serve west kiosk
get kiosk
go kiosk
serve west kiosk
get kiosk
settle
# Billing takes what it has at east, and acknowledges it.
reconnect bill
serve east bill
get bill
go bill
serve east bill
get bill
go bill
serve east bill
offer orders east billing
offer orders east billing
offer orders east billing
get bill
get bill
get bill
go bill
serve east bill
# East takes a snapshot, which ends. Then the shop publishes order1 and order2.
settle
snap orders east
settle
go shop
serve east shop
get shop
go shop
serve east shop
get shop
# Billing is offered what is due: order1 and order2, which it does not acknowledge, and the snapshot's marker. All settles.
offer orders east billing
offer orders east billing
offer orders east billing
offer orders east billing
offer orders east billing
offer orders east billing
offer orders east billing
offer orders east billing
offer orders east billing
offer orders east billing
get bill
get bill
settle
# Another service of billing begins at north: order1 and order2 come, and nothing else.
reconnect bill2
serve north bill2
get bill2
go bill2
serve north bill2
get bill2
go bill2
serve north bill2
offer orders north billing
offer orders north billing
offer orders north billing
offer orders north billing
offer orders north billing
offer orders north billing
get bill2
get bill2
