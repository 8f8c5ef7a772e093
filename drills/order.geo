# A failover subscription with consumers in two regions, and a move between two snapshots. Are the first receipts in order?
# Amy consumes at east; Bob stands ready at east and moves to west.
geo 1
cluster east
cluster west
topic orders
client shop orders east
client amy orders east
client bob orders east
do shop produce
do shop pub 0 * - order0
do shop pub 1 * - order1
do shop pub 2 * - order2
do shop pub 3 * - order3
do shop pub 4 * - order4
do shop pub 5 * - order5
do amy sub billing failover earliest replicated
do amy flow 100
do amy ack east shop 0
do amy ack east shop 1
do amy ack east shop 2
do bob sub billing failover earliest replicated
do bob flow 100
do bob move west
do bob ackall
reset orders east west
take orders east west good
receipt orders east west good
reset orders west east
take orders west east good
receipt orders west east good
reconnect shop
serve east shop
get shop
go shop
serve east shop
get shop
go shop
serve east shop
get shop
go shop
serve east shop
get shop
reconnect amy
serve east amy
get amy
go amy
serve east amy
get amy
go amy
serve east amy
reconnect bob
serve east bob
get bob
go bob
serve east bob
get bob
go bob
serve east bob
# Order0 and order1 stand before the first snapshot. Amy, the first consumer, gets both, and Bob nothing.
snap orders east
read orders east west
take orders east west good
receipt orders east west good
read orders west east
read orders east west
take orders east west good
receipt orders east west good
read orders west east
read orders east west
take orders east west good
receipt orders east west good
read orders west east
read orders west east
take orders west east good
receipt orders west east good
read orders east west
read orders east west
offer orders east billing
offer orders east billing
offer orders east billing
offer orders east billing
offer orders east billing
get amy
get amy
# Amy acknowledges both, and west hears of it.
go amy
serve east amy
go amy
serve east amy
read orders east west
take orders east west good
receipt orders east west good
read orders west east
# Order2 and order3 are published behind it. Amy gets them, and acknowledges order2.
go shop
serve east shop
get shop
go shop
serve east shop
get shop
read orders east west
take orders east west good
receipt orders east west good
read orders west east
read orders east west
take orders east west good
receipt orders east west good
read orders west east
offer orders east billing
offer orders east billing
offer orders east billing
get amy
get amy
go amy
serve east amy
# Bob moves to west between the two snapshots: he gets what west does not know as acknowledged, from order2 on.
go bob
serve west bob
serve west bob
serve west bob
get bob
get bob
offer orders west billing
offer orders west billing
offer orders west billing
offer orders west billing
get bob
get bob
# Two more are published and reach west. Bob gets them behind those before, and no one was skipped.
go shop
serve east shop
get shop
go shop
serve east shop
get shop
read orders east west
take orders east west good
receipt orders east west good
read orders east west
take orders east west good
receipt orders east west good
offer orders west billing
offer orders west billing
get bob
get bob
# He acknowledges all, a second snapshot ends, at west, and east hears of it.
go bob
serve west bob
snap orders west
read orders west east
read orders west east
read orders west east
take orders west east good
receipt orders west east good
read orders east west
read orders east west
take orders east west good
receipt orders east west good
read orders west east
read orders west east
offer orders west billing
offer orders west billing
offer orders west billing
offer orders west billing
read orders west east
take orders west east good
receipt orders west east good
read orders east west
