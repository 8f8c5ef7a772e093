# A broker dies between an acknowledgement and the update that tells the other region. Who knows what?
geo 1
cluster east
cluster west
topic orders
client shop orders east
client bill orders east
do shop produce
do shop pub 0 * - order0
do shop pub 1 * - order1
do bill sub billing exclusive earliest replicated
do bill flow 100
do bill ackall
do bill move west
do bill ackall
# Order0 and order1 are published and replicated, and a snapshot stands at east.
reset orders east west
take orders east west good
receipt orders east west good
reset orders west east
take orders west east good
receipt orders west east good
reconnect shop
serve east shop
get shop
go shop
serve east shop
get shop
go shop
serve east shop
get shop
go shop
serve east shop
get shop
reconnect bill
serve east bill
get bill
go bill
serve east bill
get bill
go bill
serve east bill
snap orders east
read orders east west
take orders east west good
receipt orders east west good
read orders west east
read orders east west
take orders east west good
receipt orders east west good
read orders west east
read orders east west
take orders east west good
receipt orders east west good
read orders west east
read orders west east
take orders west east good
receipt orders west east good
read orders east west
read orders east west
# Billing takes both orders, and its acknowledgement reaches east. The broker writes the cursor and stops before the update.
offer orders east billing
offer orders east billing
offer orders east billing
offer orders east billing
offer orders east billing
get bill
get bill
go bill
halt 1 serve east bill
# East is back, and its cursor has the acknowledgement. Nothing tells west: the snapshot that was passed is forgotten.
reset orders east west
take orders east west good
receipt orders east west good
reset orders west east
take orders west east good
receipt orders west east good
# East is lost for good before another snapshot. Billing moves to west: both come again, though east had them acknowledged.
go bill
serve west bill
serve west bill
serve west bill
get bill
get bill
offer orders west billing
offer orders west billing
offer orders west billing
offer orders west billing
get bill
get bill
go bill
serve west bill
