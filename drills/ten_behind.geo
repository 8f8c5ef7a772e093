# Billing acknowledges in order, and stays 10 behind what it was given. Does the other region hear of it?
# A snapshot ends behind each order, and the link is open all the time.
geo 1
cluster east
cluster west
topic orders
client shop orders east
client bill orders east
do shop produce
do shop pub 0 * - order0
do shop pub 1 * - order1
do shop pub 2 * - order2
do shop pub 3 * - order3
do shop pub 4 * - order4
do shop pub 5 * - order5
do shop pub 6 * - order6
do shop pub 7 * - order7
do shop pub 8 * - order8
do shop pub 9 * - order9
do shop pub 10 * - order10
do shop pub 11 * - order11
do shop pub 12 * - order12
do bill sub billing exclusive earliest replicated
do bill flow 1000
do bill ack east shop 0
do bill ack east shop 1
do bill ack east shop 2
do bill move west
reset orders east west
take orders east west good
receipt orders east west good
reset orders west east
take orders west east good
receipt orders west east good
reconnect shop
serve east shop
get shop
go shop
serve east shop
get shop
reconnect bill
serve east bill
get bill
go bill
serve east bill
get bill
go bill
serve east bill
# Order0.
go shop
serve east shop
get shop
snap orders east
read orders east west
take orders east west good
receipt orders east west good
read orders west east
read orders east west
take orders east west good
receipt orders east west good
read orders west east
read orders west east
take orders west east good
receipt orders west east good
read orders east west
read orders east west
offer orders east billing
offer orders east billing
offer orders east billing
offer orders east billing
get bill
# Order1.
go shop
serve east shop
get shop
snap orders east
read orders east west
take orders east west good
receipt orders east west good
read orders west east
read orders east west
take orders east west good
receipt orders east west good
read orders west east
read orders west east
take orders west east good
receipt orders west east good
read orders east west
read orders east west
offer orders east billing
offer orders east billing
offer orders east billing
offer orders east billing
get bill
# Order2.
go shop
serve east shop
get shop
snap orders east
read orders east west
take orders east west good
receipt orders east west good
read orders west east
read orders east west
take orders east west good
receipt orders east west good
read orders west east
read orders west east
take orders west east good
receipt orders west east good
read orders east west
read orders east west
offer orders east billing
offer orders east billing
offer orders east billing
offer orders east billing
get bill
# Order3.
go shop
serve east shop
get shop
snap orders east
read orders east west
take orders east west good
receipt orders east west good
read orders west east
read orders east west
take orders east west good
receipt orders east west good
read orders west east
read orders west east
take orders west east good
receipt orders west east good
read orders east west
read orders east west
offer orders east billing
offer orders east billing
offer orders east billing
offer orders east billing
get bill
# Order4.
go shop
serve east shop
get shop
snap orders east
read orders east west
take orders east west good
receipt orders east west good
read orders west east
read orders east west
take orders east west good
receipt orders east west good
read orders west east
read orders west east
take orders west east good
receipt orders west east good
read orders east west
read orders east west
offer orders east billing
offer orders east billing
offer orders east billing
offer orders east billing
get bill
# Order5.
go shop
serve east shop
get shop
snap orders east
read orders east west
take orders east west good
receipt orders east west good
read orders west east
read orders east west
take orders east west good
receipt orders east west good
read orders west east
read orders west east
take orders west east good
receipt orders west east good
read orders east west
read orders east west
offer orders east billing
offer orders east billing
offer orders east billing
offer orders east billing
get bill
# Order6.
go shop
serve east shop
get shop
snap orders east
read orders east west
take orders east west good
receipt orders east west good
read orders west east
read orders east west
take orders east west good
receipt orders east west good
read orders west east
read orders west east
take orders west east good
receipt orders west east good
read orders east west
read orders east west
offer orders east billing
offer orders east billing
offer orders east billing
offer orders east billing
get bill
# Order7.
go shop
serve east shop
get shop
snap orders east
read orders east west
take orders east west good
receipt orders east west good
read orders west east
read orders east west
take orders east west good
receipt orders east west good
read orders west east
read orders west east
take orders west east good
receipt orders west east good
read orders east west
read orders east west
offer orders east billing
offer orders east billing
offer orders east billing
offer orders east billing
get bill
# Order8.
go shop
serve east shop
get shop
snap orders east
read orders east west
take orders east west good
receipt orders east west good
read orders west east
read orders east west
take orders east west good
receipt orders east west good
read orders west east
read orders west east
take orders west east good
receipt orders west east good
read orders east west
read orders east west
offer orders east billing
offer orders east billing
offer orders east billing
offer orders east billing
get bill
# Order9.
go shop
serve east shop
get shop
snap orders east
read orders east west
take orders east west good
receipt orders east west good
read orders west east
read orders east west
take orders east west good
receipt orders east west good
read orders west east
read orders west east
take orders west east good
receipt orders west east good
read orders east west
read orders east west
offer orders east billing
offer orders east billing
offer orders east billing
offer orders east billing
get bill
# Order10.
go shop
serve east shop
get shop
snap orders east
read orders east west
take orders east west good
receipt orders east west good
read orders west east
read orders east west
take orders east west good
receipt orders east west good
read orders west east
read orders west east
take orders west east good
receipt orders west east good
read orders east west
read orders east west
offer orders east billing
offer orders east billing
offer orders east billing
offer orders east billing
get bill
go bill
serve east bill
# Order11.
go shop
serve east shop
get shop
snap orders east
read orders east west
take orders east west good
receipt orders east west good
read orders west east
read orders east west
take orders east west good
receipt orders east west good
read orders west east
read orders west east
take orders west east good
receipt orders west east good
read orders east west
read orders east west
offer orders east billing
offer orders east billing
offer orders east billing
offer orders east billing
get bill
go bill
serve east bill
# Order12.
go shop
serve east shop
get shop
snap orders east
read orders east west
take orders east west good
receipt orders east west good
read orders west east
read orders east west
take orders east west good
receipt orders east west good
read orders west east
read orders west east
take orders west east good
receipt orders west east good
read orders east west
read orders east west
offer orders east billing
offer orders east billing
offer orders east billing
offer orders east billing
get bill
go bill
serve east bill
# Three acknowledgements have passed three snapshots, and none was told: a subscription remembers ten snapshots, and they were forgotten.
# East is lost. Billing moves to west: all that it acknowledged comes again.
go bill
serve west bill
serve west bill
serve west bill
get bill
get bill
offer orders west billing
offer orders west billing
offer orders west billing
offer orders west billing
offer orders west billing
offer orders west billing
offer orders west billing
offer orders west billing
offer orders west billing
offer orders west billing
offer orders west billing
offer orders west billing
offer orders west billing
offer orders west billing
offer orders west billing
offer orders west billing
offer orders west billing
offer orders west billing
offer orders west billing
offer orders west billing
offer orders west billing
offer orders west billing
offer orders west billing
offer orders west billing
offer orders west billing
offer orders west billing
offer orders west billing
offer orders west billing
offer orders west billing
offer orders west billing
offer orders west billing
offer orders west billing
offer orders west billing
offer orders west billing
offer orders west billing
offer orders west billing
offer orders west billing
offer orders west billing
offer orders west billing
get bill
get bill
get bill
get bill
get bill
get bill
get bill
get bill
get bill
get bill
get bill
get bill
get bill
