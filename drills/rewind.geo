# How to seek back in both regions: settle, seek in both to the same place, settle, look at the marks.
geo 1
cluster east
cluster west
topic orders
client shop orders east
client bill orders east
client bill2 orders west
do shop produce
do shop pub 0 * - order0
do shop pub 1 * - order1
do bill sub billing exclusive earliest replicated
do bill flow 100
do bill ackall
do bill2 sub billing exclusive earliest replicated
do bill2 flow 100
do bill2 ackall
reset orders east west
take orders east west good
receipt orders east west good
reset orders west east
take orders west east good
receipt orders west east good
reconnect shop
serve east shop
get shop
go shop
serve east shop
get shop
go shop
serve east shop
get shop
go shop
serve east shop
get shop
reconnect bill
serve east bill
get bill
go bill
serve east bill
get bill
go bill
serve east bill
read orders east west
take orders east west good
receipt orders east west good
read orders west east
read orders east west
take orders east west good
receipt orders east west good
read orders west east
reconnect bill2
serve west bill2
get bill2
go bill2
serve west bill2
get bill2
go bill2
serve west bill2
offer orders east billing
offer orders east billing
get bill
get bill
go bill
serve east bill
# A snapshot ends at west, and billing passes it there: the update stands at west and has not come to east.
snap orders west
read orders west east
take orders west east good
receipt orders west east good
read orders east west
read orders east west
take orders east west good
receipt orders east west good
read orders west east
read orders west east
offer orders west billing
offer orders west billing
offer orders west billing
offer orders west billing
offer orders west billing
get bill2
get bill2
go bill2
serve west bill2
# First all comes over. Then the operator seeks to the first order, in both regions, and all comes over again.
settle
seek orders east billing 0:0
seek orders west billing 0:0
settle
# Both consumers connect again, and get both orders again.
reconnect bill
serve east bill
serve east bill
serve east bill
get bill
get bill
offer orders east billing
offer orders east billing
offer orders east billing
offer orders east billing
offer orders east billing
get bill
get bill
reconnect bill2
serve west bill2
serve west bill2
serve west bill2
get bill2
get bill2
offer orders west billing
offer orders west billing
offer orders west billing
offer orders west billing
offer orders west billing
offer orders west billing
get bill2
get bill2
