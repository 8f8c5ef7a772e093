# What links do: a slow direction, packets that come twice or are lost, a partition, and its end.
geo 1
cluster east
cluster north
cluster west
topic orders
client shop orders east
client kiosk orders west
do shop produce
do shop pub 0 * - order0
do shop pub 1 * - order1
do shop pub 2 * - order2
do shop pub 3 * - order3
do kiosk produce
do kiosk pub 0 * - walkin0
reset orders east north
take orders east north good
receipt orders east north good
reset orders north east
take orders north east good
receipt orders north east good
reset orders east west
take orders east west good
receipt orders east west good
reset orders west east
take orders west east good
receipt orders west east good
reset orders north west
take orders north west good
receipt orders north west good
reset orders west north
take orders west north good
receipt orders west north good
reconnect shop
serve east shop
get shop
reconnect kiosk
serve west kiosk
get kiosk
go shop
serve east shop
get shop
go shop
serve east shop
get shop
go kiosk
serve west kiosk
get kiosk
# Each packet comes twice, and is stored once.
read orders east west
take orders east west twice
receipt orders east west good
receipt orders east west good
# The first packet is lost, twice: two sessions more, and it is stored once.
go shop
serve east shop
get shop
read orders east west
take orders east west lost
reset orders east west
take orders east west good
receipt orders east west good
read orders east west
take orders east west lost
reset orders east west
take orders east west good
receipt orders east west good
read orders east west
take orders east west good
receipt orders east west good
# One direction is slow. What is sent waits, and comes when the link is as before.
go shop
serve east shop
get shop
go kiosk
serve west kiosk
get kiosk
read orders east west
read orders west east
read orders west east
read orders west east
take orders west east good
take orders east west good
receipt orders west east good
read orders east west
receipt orders east west good
read orders west east
# East and the others are parted, and each goes on.
go shop
serve east shop
get shop
read orders west north
read orders west north
read orders west north
take orders west north good
receipt orders west north good
read orders north west
read orders west north
reset orders east north
take orders east north good
receipt orders east north good
reset orders north east
take orders north east good
receipt orders north east good
reset orders east west
take orders east west good
receipt orders east west good
reset orders west east
take orders west east good
receipt orders west east good
read orders east north
take orders east north good
receipt orders east north good
read orders east west
take orders east west good
receipt orders east west good
read orders north east
read orders north west
read orders west east
read orders west north
read orders east north
take orders east north good
receipt orders east north good
read orders north east
read orders north west
read orders east north
take orders east north good
receipt orders east north good
read orders north east
read orders north west
read orders east north
read orders north east
read orders east north
take orders east north good
receipt orders east north good
read orders north east
read orders north west
