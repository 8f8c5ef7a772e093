# An operator seeks in one region only. What does the other region do?
geo 1
cluster east
cluster west
topic orders
client shop orders east
client bill orders east
do shop produce
do shop pub 0 * - order0
do shop pub 1 * - order1
do shop pub 2 * - order2
do shop pub 3 * - order3
do bill sub billing exclusive earliest replicated
do bill flow 100
do bill ackall
do bill move west
# Order0 and order1 are published, a snapshot is taken, billing acknowledges both, and west hears of it.
reset orders east west
take orders east west good
receipt orders east west good
reset orders west east
take orders west east good
receipt orders west east good
reconnect shop
serve east shop
get shop
go shop
serve east shop
get shop
go shop
serve east shop
get shop
go shop
serve east shop
get shop
reconnect bill
serve east bill
get bill
go bill
serve east bill
get bill
go bill
serve east bill
snap orders east
read orders east west
take orders east west good
receipt orders east west good
read orders west east
read orders east west
take orders east west good
receipt orders east west good
read orders west east
read orders east west
take orders east west good
receipt orders east west good
read orders west east
read orders west east
take orders west east good
receipt orders west east good
read orders east west
read orders east west
offer orders east billing
offer orders east billing
offer orders east billing
offer orders east billing
offer orders east billing
get bill
get bill
go bill
serve east bill
read orders east west
take orders east west good
receipt orders east west good
read orders west east
# An operator seeks back to the first order, at east only, and billing connects again: both come again at east. West stays where it was.
seek orders east billing 0:0
reconnect bill
serve east bill
serve east bill
serve east bill
get bill
get bill
offer orders east billing
offer orders east billing
offer orders east billing
offer orders east billing
offer orders east billing
offer orders east billing
get bill
get bill
# Order2 and order3 are published, another snapshot is taken behind them, and billing gets both. Nobody acknowledges anything.
go shop
serve east shop
get shop
go shop
serve east shop
get shop
read orders east west
take orders east west good
receipt orders east west good
read orders west east
read orders east west
take orders east west good
receipt orders east west good
read orders west east
snap orders east
read orders east west
take orders east west good
receipt orders east west good
read orders west east
read orders west east
take orders west east good
receipt orders west east good
read orders east west
read orders east west
offer orders east billing
offer orders east billing
offer orders east billing
offer orders east billing
offer orders east billing
get bill
get bill
# The operator seeks to the end, at east only. The seek passes the snapshot, so east tells west, which passes over order2 and order3.
seek orders east billing end
read orders east west
take orders east west good
receipt orders east west good
read orders west east
# Billing moves to west and gets nothing.
go bill
serve west bill
serve west bill
serve west bill
get bill
get bill
offer orders west billing
offer orders west billing
