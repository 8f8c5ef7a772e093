# A service at west subscribes by a name that is replicated at east, and says local. Does it get every order?
geo 1
cluster east
cluster west
topic orders
client shop orders east
client bill orders east
client report orders west
do shop produce
do shop pub 0 * - order0
do shop pub 1 * - order1
do shop pub 2 * - order2
do bill sub billing exclusive earliest replicated
do bill flow 100
do bill ackall
do report sub billing exclusive earliest local
do report flow 100
do report ackall
reset orders east west
take orders east west good
receipt orders east west good
reset orders west east
take orders west east good
receipt orders west east good
reconnect shop
serve east shop
get shop
go shop
serve east shop
get shop
go shop
serve east shop
get shop
go shop
serve east shop
get shop
read orders east west
take orders east west good
receipt orders east west good
read orders east west
take orders east west good
receipt orders east west good
reconnect bill
serve east bill
get bill
go bill
serve east bill
get bill
go bill
serve east bill
# The service at west subscribes, and has not taken anything yet.
reconnect report
serve west report
get report
go report
serve west report
get report
go report
serve west report
# Billing at east acknowledges both orders behind a snapshot, and its update comes to west.
snap orders east
read orders east west
take orders east west good
receipt orders east west good
read orders west east
read orders west east
read orders west east
read orders west east
take orders west east good
receipt orders west east good
read orders east west
read orders east west
offer orders east billing
offer orders east billing
offer orders east billing
offer orders east billing
offer orders east billing
get bill
get bill
go bill
serve east bill
read orders east west
take orders east west good
receipt orders east west good
read orders west east
# West acts on it: `local` keeps no update out. Both orders are passed over, and the service gets none of them.
offer orders west billing
offer orders west billing
# What is published from here on comes to it.
go shop
serve east shop
get shop
read orders east west
take orders east west good
receipt orders east west good
offer orders west billing
get report
