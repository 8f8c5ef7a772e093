# Some messages go to some regions only. What does a failover do with those that the consumer's region never had?
# The kiosk at west publishes for west alone, for west and north, and for all.
geo 1
cluster east
cluster north
cluster west
topic orders
client kiosk orders west
client bill orders east
do kiosk produce
do kiosk pub 0 * - all0
do kiosk pub 1 north - north1
do kiosk pub 2 west - west2
do kiosk pub 3 * - all3
do bill sub billing exclusive earliest replicated
do bill flow 100
do bill ackall
do bill move west
do bill ackall
do bill move north
reset orders east north
take orders east north good
receipt orders east north good
reset orders north east
take orders north east good
receipt orders north east good
reset orders east west
take orders east west good
receipt orders east west good
reset orders west east
take orders west east good
receipt orders west east good
reset orders north west
take orders north west good
receipt orders north west good
reset orders west north
take orders west north good
receipt orders west north good
# The kiosk publishes all four; east gets the two for all, north three.
reconnect kiosk
serve west kiosk
get kiosk
go kiosk
serve west kiosk
get kiosk
go kiosk
serve west kiosk
get kiosk
go kiosk
serve west kiosk
get kiosk
go kiosk
serve west kiosk
get kiosk
go kiosk
serve west kiosk
get kiosk
reconnect bill
serve east bill
get bill
go bill
serve east bill
get bill
go bill
serve east bill
# East takes a snapshot behind them; billing takes what east has and acknowledges it; both others hear of it.
read orders west east
take orders west east good
receipt orders west east good
read orders west north
take orders west north good
receipt orders west north good
read orders east north
read orders east west
read orders north east
read orders north west
read orders west east
read orders west north
take orders west north good
receipt orders west north good
read orders north east
read orders north west
read orders west east
read orders west north
read orders west east
take orders west east good
receipt orders west east good
read orders west north
take orders west north good
receipt orders west north good
read orders east north
read orders east west
read orders north east
read orders north west
snap orders east
read orders east north
take orders east north good
receipt orders east north good
read orders east west
take orders east west good
receipt orders east west good
read orders north east
read orders north west
read orders west east
read orders west north
read orders north east
take orders north east good
receipt orders north east good
read orders north west
read orders west east
take orders west east good
receipt orders west east good
read orders west north
read orders east north
read orders east west
read orders east north
read orders east west
read orders east north
take orders east north good
receipt orders east north good
read orders east west
take orders east west good
receipt orders east west good
read orders north east
read orders north west
read orders west east
read orders west north
read orders north east
take orders north east good
receipt orders north east good
read orders north west
read orders west east
take orders west east good
receipt orders west east good
read orders west north
read orders east north
read orders east west
read orders east north
read orders east west
read orders east north
read orders east west
offer orders east billing
offer orders east billing
offer orders east billing
offer orders east billing
offer orders east billing
offer orders east billing
offer orders east billing
offer orders east billing
offer orders east billing
get bill
get bill
go bill
serve east bill
read orders east north
take orders east north good
receipt orders east north good
read orders east west
take orders east west good
receipt orders east west good
read orders north east
read orders north west
read orders west east
read orders west north
# Billing moves to west: the update passed over all0 and all3. What east never had comes, for the first time.
go bill
serve west bill
serve west bill
serve west bill
get bill
get bill
offer orders west billing
offer orders west billing
offer orders west billing
offer orders west billing
offer orders west billing
offer orders west billing
get bill
get bill
go bill
serve west bill
# Billing moves to north, which west did not tell of that yet: north1 comes again.
go bill
serve north bill
serve north bill
serve north bill
get bill
get bill
offer orders north billing
offer orders north billing
offer orders north billing
offer orders north billing
offer orders north billing
get bill
