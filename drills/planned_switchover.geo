# A planned switchover of three regions: billing moves from east to north, and nothing comes again, whoever published it.
geo 1
cluster east
cluster north
cluster west
topic orders
client shop orders east
client kiosk orders west
client bill orders east
client bill2 orders north
do shop produce
do shop pub 0 * - order0
do shop pub 1 * - order1
do kiosk produce
do kiosk pub 0 * - sale0
do kiosk pub 1 * - sale1
do bill sub billing exclusive earliest replicated
do bill flow 100
do bill ackall
do bill2 sub billing exclusive earliest replicated
do bill2 flow 100
# The shop publishes at east, the kiosk at west; all comes over.
reconnect shop
serve east shop
get shop
go shop
serve east shop
get shop
go shop
serve east shop
get shop
go shop
serve east shop
get shop
reconnect kiosk
serve west kiosk
get kiosk
go kiosk
serve west kiosk
get kiosk
go kiosk
serve west kiosk
get kiosk
go kiosk
serve west kiosk
get kiosk
settle
# Billing takes all four at east, and acknowledges them.
reconnect bill
serve east bill
get bill
go bill
serve east bill
get bill
go bill
serve east bill
offer orders east billing
offer orders east billing
offer orders east billing
offer orders east billing
get bill
get bill
get bill
get bill
go bill
serve east bill
# The procedure: settle, a snapshot, settle, offers, settle. Then the report says backlog 0 of billing at north, where nobody was yet.
settle
snap orders east
settle
offer orders east billing
offer orders east billing
offer orders east billing
offer orders east billing
offer orders east billing
offer orders east billing
offer orders east billing
offer orders east billing
settle
# Another service of billing begins at north. Nothing comes.
reconnect bill2
serve north bill2
get bill2
go bill2
serve north bill2
get bill2
go bill2
serve north bill2
offer orders north billing
offer orders north billing
offer orders north billing
offer orders north billing
