# A subscription is deleted in both regions while an update is under way. Is it gone?
geo 1
cluster east
cluster west
topic orders
client shop orders east
client bill orders east
client bill2 orders west
do shop produce
do shop pub 0 * - order0
do shop pub 1 * - order1
do bill sub billing exclusive earliest replicated
do bill flow 100
do bill ackall
do bill unsub
do bill2 sub billing exclusive earliest replicated
do bill2 unsub
reset orders east west
take orders east west good
receipt orders east west good
reset orders west east
take orders west east good
receipt orders west east good
reconnect shop
serve east shop
get shop
go shop
serve east shop
get shop
go shop
serve east shop
get shop
reconnect bill
serve east bill
get bill
go bill
serve east bill
get bill
go bill
serve east bill
# A snapshot ends at east. Billing acknowledges, so an update stands there, which does not leave yet.
snap orders east
read orders east west
take orders east west good
receipt orders east west good
read orders west east
read orders east west
take orders east west good
receipt orders east west good
read orders west east
read orders west east
take orders west east good
receipt orders west east good
read orders east west
read orders east west
offer orders east billing
offer orders east billing
offer orders east billing
offer orders east billing
get bill
go bill
serve east bill
# Both services delete the subscription.
reconnect bill2
serve west bill2
get bill2
go bill2
serve west bill2
get bill2
go bill2
serve west bill2
get bill2
go bill
serve east bill
get bill
# The update comes to west: the subscription is there again, without a consumer, and its backlog grows.
read orders east west
take orders east west good
receipt orders east west good
read orders west east
go shop
serve east shop
get shop
read orders east west
take orders east west good
receipt orders east west good
