# A planned move with one step missing: the marker of the snapshot is not offered to billing. What comes again?
geo 1
cluster east
cluster west
topic orders
client shop orders east
client kiosk orders west
client bill orders east
do shop produce
do shop pub 0 * - order0
do shop pub 1 * - order1
do shop pub 2 * - order2
do kiosk produce
do kiosk pub 0 * - walkin0
do bill sub billing exclusive earliest replicated
do bill flow 100
do bill ackall
do bill move west
reset orders east west
take orders east west good
receipt orders east west good
reset orders west east
take orders west east good
receipt orders west east good
reconnect shop
serve east shop
get shop
go shop
serve east shop
get shop
go shop
serve east shop
get shop
go shop
serve east shop
get shop
reconnect kiosk
serve west kiosk
get kiosk
go kiosk
serve west kiosk
get kiosk
go kiosk
serve west kiosk
get kiosk
reconnect bill
serve east bill
get bill
go bill
serve east bill
get bill
go bill
serve east bill
read orders east west
take orders east west good
receipt orders east west good
read orders west east
take orders west east good
receipt orders west east good
read orders east west
take orders east west good
receipt orders east west good
read orders west east
read orders east west
read orders west east
# Billing drains its backlog at east.
offer orders east billing
offer orders east billing
offer orders east billing
get bill
get bill
get bill
go bill
serve east bill
# All comes over, a snapshot is asked for and ends. Billing is not offered its marker, so it does not pass it, and no update is stored.
settle
snap orders east
settle
settle
# Billing moves: all that it acknowledged at east comes again.
go bill
serve west bill
serve west bill
serve west bill
get bill
get bill
offer orders west billing
offer orders west billing
offer orders west billing
offer orders west billing
offer orders west billing
get bill
get bill
get bill
