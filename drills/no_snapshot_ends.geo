# Three regions, and one is down: no snapshot ends. What does a failover between the other two cost?
# The shop publishes at east, billing consumes there and moves to north. West does not answer.
geo 1
cluster east
cluster north
cluster west
topic orders
client shop orders east
client bill orders east
do shop produce
do shop pub 0 * - order0
do shop pub 1 * - order1
do shop pub 2 * - order2
do bill sub billing exclusive earliest replicated
do bill flow 100
do bill ackall
do bill move north
do bill ackall
# West is down from the beginning. East and north are linked.
reset orders east north
take orders east north good
receipt orders east north good
reset orders north east
take orders north east good
receipt orders north east good
reconnect shop
serve east shop
get shop
go shop
serve east shop
get shop
go shop
serve east shop
get shop
go shop
serve east shop
get shop
go shop
serve east shop
get shop
reconnect bill
serve east bill
get bill
go bill
serve east bill
get bill
go bill
serve east bill
# East asks for a snapshot. North answers, west does not, so the snapshot waits. A second one is not begun meanwhile.
snap orders east
read orders east north
take orders east north good
receipt orders east north good
read orders north east
read orders east north
take orders east north good
receipt orders east north good
read orders north east
read orders east north
take orders east north good
receipt orders east north good
read orders north east
read orders east north
take orders east north good
receipt orders east north good
read orders north east
read orders north east
take orders north east good
receipt orders north east good
read orders east north
snap orders east
# Billing takes all three orders and acknowledges them. East has no snapshot that it could tell north of.
offer orders east billing
offer orders east billing
offer orders east billing
offer orders east billing
offer orders east billing
get bill
get bill
get bill
go bill
serve east bill
# East is lost too. Billing moves to north: all three come again.
go bill
serve north bill
serve north bill
serve north bill
get bill
get bill
offer orders north billing
offer orders north billing
offer orders north billing
offer orders north billing
offer orders north billing
get bill
get bill
get bill
go bill
serve north bill
# East and west come back. The broker at east has forgotten the snapshot in the making: west's answer, which comes now, counts for nothing.
restart orders east
restart orders west
settle
# North asks for a snapshot, since billing is there now. Of three regions each answers twice.
snap orders north
settle
# North comes to its snapshot, which billing has passed there, and tells the others.
offer orders north billing
offer orders north billing
offer orders north billing
offer orders north billing
offer orders north billing
offer orders north billing
offer orders north billing
offer orders north billing
settle
