# A script without events, for `geo live`: nodes on threads make the schedule by themselves.
# Two regions; a shop that publishes eight orders at east, and a billing service that consumes them there and then moves to west.
# Of a thousand packets between the regions twenty are lost and twenty come twice, and of a thousand turns a broker starts again at two.
geo 1
chance 1 20 20 2
cluster east
cluster west
topic orders
client shop orders east
client bill orders east
do shop produce
do shop pub 0 * - order0
do shop pub 1 * - order1
do shop pub 2 * - order2
do shop pub 3 * - order3
do shop pub 4 * - order4
do shop pub 5 * - order5
do shop pub 6 * - order6
do shop pub 7 * - order7
do bill sub billing exclusive earliest replicated
do bill flow 100
do bill ack east shop 0
do bill ack east shop 1
do bill ack east shop 2
do bill ack east shop 3
do bill move west
do bill ack east shop 4
do bill ack east shop 5
do bill ack east shop 6
do bill ack east shop 7
