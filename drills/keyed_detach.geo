# Two workers share a subscription by keys, and one of them leaves and comes back. Does each key keep its order?
geo 1
cluster east
cluster west
topic orders
client shop orders east
client amy orders east
client bob orders east
do shop produce
do shop pub 0 * b b0
do shop pub 1 * a a1
do shop pub 2 * b b2
do shop pub 3 * a a3
do shop pub 4 * a a4
do shop pub 5 * a a5
do amy sub work keyshared earliest local
do amy flow 100
do amy ackall
do bob sub work keyshared earliest local
do bob flow 100
do bob close
do bob sub work keyshared earliest local
do bob flow 100
# Both subscribe. The shop publishes two orders of each of two keys, and each key goes to one worker.
reconnect shop
serve east shop
get shop
reconnect amy
serve east amy
get amy
go amy
serve east amy
get amy
go amy
serve east amy
reconnect bob
serve east bob
get bob
go bob
serve east bob
get bob
go bob
serve east bob
go shop
serve east shop
get shop
go shop
serve east shop
get shop
go shop
serve east shop
get shop
go shop
serve east shop
get shop
go shop
serve east shop
get shop
offer orders east work
offer orders east work
offer orders east work
offer orders east work
get amy
get amy
get bob
get bob
# Bob leaves without an acknowledgement. What was out with bob is given to amy, in its order.
go bob
serve east bob
get bob
offer orders east work
offer orders east work
get amy
get amy
# One more order of that key goes to amy, who is alone. Nobody has acknowledged anything.
go shop
serve east shop
get shop
offer orders east work
get amy
# Bob comes back, and the key is bob's again: its next order goes to bob, while amy has not acknowledged the three before it.
go bob
serve east bob
get bob
go bob
serve east bob
go shop
serve east shop
get shop
offer orders east work
get bob
# Amy acknowledges all that she holds.
go amy
serve east amy
