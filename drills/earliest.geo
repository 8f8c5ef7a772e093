# The same lines, with Earliest in both regions: is anybody passed over?
geo 1
cluster east
cluster west
topic orders
client shop orders east
client bill orders east
client bill2 orders west
do shop produce
do shop pub 0 * - order0
do shop pub 1 * - order1
do bill sub billing exclusive earliest replicated
do bill flow 100
do bill2 sub billing exclusive earliest replicated
do bill2 flow 100
# Billing subscribes at east before anything is published, and has given no permit yet. The shop publishes two orders, with receipts.
reset orders east west
take orders east west good
receipt orders east west good
reset orders west east
take orders west east good
receipt orders west east good
reconnect bill
serve east bill
get bill
go bill
serve east bill
get bill
reconnect shop
serve east shop
get shop
go shop
serve east shop
get shop
go shop
serve east shop
get shop
go shop
serve east shop
get shop
read orders east west
take orders east west good
receipt orders east west good
read orders east west
take orders east west good
receipt orders east west good
# A second service subscribes at west at Earliest: there the cursor is created before both orders.
reconnect bill2
serve west bill2
get bill2
go bill2
serve west bill2
get bill2
go bill2
serve west bill2
# A snapshot ends at west, the subscription there is offered its marker, and what is to be told comes to east.
snap orders west
read orders west east
read orders west east
read orders west east
take orders west east good
receipt orders west east good
read orders east west
read orders east west
take orders east west good
receipt orders east west good
read orders west east
read orders west east
offer orders west billing
offer orders west billing
offer orders west billing
offer orders west billing
offer orders west billing
get bill2
get bill2
# Billing at east takes all that comes.
go bill
serve east bill
offer orders east billing
offer orders east billing
offer orders east billing
offer orders east billing
get bill
get bill
