# Receipts are lost, of a replicator and of a producer. Is anything stored twice, and is anything taken for received that is not?
geo 1
cluster east
cluster west
topic orders
client shop orders east
do shop produce
do shop pub 0 * - order0
do shop pub 1 * - order1
# The shop publishes order0 and order1; its session is dropped, and with it both receipts.
reset orders east west
take orders east west good
receipt orders east west good
reset orders west east
take orders west east good
receipt orders west east good
reconnect shop
serve east shop
get shop
go shop
serve east shop
get shop
go shop
serve east shop
go shop
serve east shop
drop east shop
# It connects again, sends both again, and has receipts of duplicates.
reconnect shop
serve east shop
serve east shop
serve east shop
serve east shop
get shop
get shop
get shop
get shop
get shop
get shop
# East sends both to west, which stores them; both receipts are lost. East's mark stays 0: it counts nothing that it was not told.
read orders east west
take orders east west good
read orders east west
take orders east west good
receipt orders east west lost
receipt orders east west lost
# A new session sends both again. West stores neither, and acknowledges both.
reset orders east west
take orders east west good
receipt orders east west good
reset orders west east
take orders west east good
receipt orders west east good
read orders east west
take orders east west good
receipt orders east west good
read orders east west
take orders east west good
receipt orders east west good
