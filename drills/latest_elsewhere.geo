# A consumer subscribes at Latest in the other region, by the same name. What becomes of the backlog of this one?
geo 1
cluster east
cluster west
topic orders
client shop orders east
client bill orders east
client bill2 orders west
do shop produce
do shop pub 0 * - order0
do shop pub 1 * - order1
do shop pub 2 * - order2
do bill sub billing exclusive earliest replicated
do bill flow 100
do bill2 sub billing exclusive latest replicated
reset orders east west
take orders east west good
receipt orders east west good
reset orders west east
take orders west east good
receipt orders west east good
reconnect shop
serve east shop
get shop
go shop
serve east shop
get shop
go shop
serve east shop
get shop
go shop
serve east shop
get shop
reconnect bill
serve east bill
get bill
go bill
serve east bill
get bill
read orders east west
take orders east west good
receipt orders east west good
read orders east west
take orders east west good
receipt orders east west good
# A second service starts at west with the client's default, Latest: what stands there counts as acknowledged.
reconnect bill2
serve west bill2
get bill2
go bill2
serve west bill2
get bill2
# A snapshot ends at west and is passed at once. The update tells east that both orders are settled.
snap orders west
read orders west east
read orders west east
read orders west east
take orders west east good
receipt orders west east good
read orders east west
read orders east west
take orders east west good
receipt orders east west good
read orders west east
read orders west east
offer orders west billing
offer orders west billing
offer orders west billing
offer orders west billing
read orders west east
take orders west east good
receipt orders west east good
read orders east west
# Billing at east gets nothing: nobody ever got order0 and order1.
go bill
serve east bill
offer orders east billing
offer orders east billing
# What is published from here on comes, to both.
go shop
serve east shop
get shop
offer orders east billing
get bill
