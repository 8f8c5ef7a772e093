# The same switchover with the offers left out: the update is not stored, and all comes again at north.
geo 1
cluster east
cluster north
cluster west
topic orders
client shop orders east
client kiosk orders west
client bill orders east
client bill2 orders north
do shop produce
do shop pub 0 * - order0
do shop pub 1 * - order1
do kiosk produce
do kiosk pub 0 * - sale0
do kiosk pub 1 * - sale1
do bill sub billing exclusive earliest replicated
do bill flow 100
do bill ackall
do bill2 sub billing exclusive earliest replicated
do bill2 flow 100
# The shop publishes at east, the kiosk at west; all comes over.
reconnect shop
serve east shop
get shop
go shop
serve east shop
get shop
go shop
serve east shop
get shop
go shop
serve east shop
get shop
reconnect kiosk
serve west kiosk
get kiosk
go kiosk
serve west kiosk
get kiosk
go kiosk
serve west kiosk
get kiosk
go kiosk
serve west kiosk
get kiosk
settle
# Billing takes all four at east, and acknowledges them.
reconnect bill
serve east bill
get bill
go bill
serve east bill
get bill
go bill
serve east bill
offer orders east billing
offer orders east billing
offer orders east billing
offer orders east billing
get bill
get bill
get bill
get bill
go bill
serve east bill
# The snapshot ends, and billing is not offered its marker.
settle
snap orders east
settle
settle
# Another service of billing begins at north. All four come, those of the kiosk at west too.
reconnect bill2
serve north bill2
get bill2
go bill2
serve north bill2
get bill2
go bill2
serve north bill2
offer orders north billing
offer orders north billing
offer orders north billing
offer orders north billing
offer orders north billing
offer orders north billing
offer orders north billing
offer orders north billing
get bill2
get bill2
get bill2
get bill2
