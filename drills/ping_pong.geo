# A consumer moves to and fro between two regions before it has acknowledged. How often does an acknowledged order come?
geo 1
cluster east
cluster west
topic orders
client shop orders east
client bill orders east
do shop produce
do shop pub 0 * - order0
do shop pub 1 * - order1
do bill sub billing exclusive earliest replicated
do bill flow 100
do bill ackall
do bill move west
do bill move east
do bill move west
do bill ackall
reset orders east west
take orders east west good
receipt orders east west good
reset orders west east
take orders west east good
receipt orders west east good
reconnect shop
serve east shop
get shop
go shop
serve east shop
get shop
go shop
serve east shop
get shop
go shop
serve east shop
get shop
reconnect bill
serve east bill
get bill
go bill
serve east bill
get bill
go bill
serve east bill
offer orders east billing
offer orders east billing
get bill
get bill
go bill
serve east bill
read orders east west
take orders east west good
receipt orders east west good
read orders west east
read orders east west
take orders east west good
receipt orders east west good
read orders west east
# To west, where both come again, back to east, where nothing is due, and to west once more: both come a third time.
go bill
serve west bill
serve west bill
serve west bill
get bill
get bill
offer orders west billing
offer orders west billing
get bill
get bill
go bill
serve east bill
serve east bill
serve east bill
get bill
get bill
go bill
serve west bill
serve west bill
serve west bill
get bill
get bill
offer orders west billing
offer orders west billing
get bill
get bill
# Acknowledged at west too, they do not come again there.
go bill
serve west bill
reconnect bill
serve west bill
serve west bill
serve west bill
get bill
get bill
