# Names as they are: regions with hyphens, a topic with its tenant and namespace, a long subscription.
geo 1
cluster us_east_1
cluster us_east_2
cluster eu_west_1
topic persistent___sho
client checkout_service persistent___sho us_east_1
client billing_service_ persistent___sho us_east_1
do checkout_service produce
do checkout_service pub 0 * - order0
do checkout_service pub 1 us_east_2,us_east_1 - order1
do billing_service_ sub billing_of_the_w exclusive earliest replicated
do billing_service_ flow 100
do billing_service_ ack us_east_1 checkout_service 0
reset persistent___sho us_east_1 us_east_2
take persistent___sho us_east_1 us_east_2 good
receipt persistent___sho us_east_1 us_east_2 good
reset persistent___sho us_east_2 us_east_1
take persistent___sho us_east_2 us_east_1 good
receipt persistent___sho us_east_2 us_east_1 good
reset persistent___sho us_east_1 eu_west_1
take persistent___sho us_east_1 eu_west_1 good
receipt persistent___sho us_east_1 eu_west_1 good
reset persistent___sho eu_west_1 us_east_1
take persistent___sho eu_west_1 us_east_1 good
receipt persistent___sho eu_west_1 us_east_1 good
reset persistent___sho us_east_2 eu_west_1
take persistent___sho us_east_2 eu_west_1 good
receipt persistent___sho us_east_2 eu_west_1 good
reset persistent___sho eu_west_1 us_east_2
take persistent___sho eu_west_1 us_east_2 good
receipt persistent___sho eu_west_1 us_east_2 good
reconnect checkout_service
serve us_east_1 checkout_service
get checkout_service
go checkout_service
serve us_east_1 checkout_service
get checkout_service
go checkout_service
serve us_east_1 checkout_service
get checkout_service
go checkout_service
serve us_east_1 checkout_service
get checkout_service
reconnect billing_service_
serve us_east_1 billing_service_
get billing_service_
go billing_service_
serve us_east_1 billing_service_
get billing_service_
go billing_service_
serve us_east_1 billing_service_
offer persistent___sho us_east_1 billing_of_the_w
offer persistent___sho us_east_1 billing_of_the_w
get billing_service_
get billing_service_
go billing_service_
serve us_east_1 billing_service_
read persistent___sho us_east_1 us_east_2
take persistent___sho us_east_1 us_east_2 good
receipt persistent___sho us_east_1 us_east_2 good
read persistent___sho us_east_1 eu_west_1
take persistent___sho us_east_1 eu_west_1 good
receipt persistent___sho us_east_1 eu_west_1 good
read persistent___sho us_east_2 us_east_1
read persistent___sho us_east_2 eu_west_1
read persistent___sho eu_west_1 us_east_1
read persistent___sho eu_west_1 us_east_2
read persistent___sho us_east_1 us_east_2
take persistent___sho us_east_1 us_east_2 good
receipt persistent___sho us_east_1 us_east_2 good
read persistent___sho us_east_1 eu_west_1
read persistent___sho us_east_2 us_east_1
read persistent___sho us_east_2 eu_west_1
snap persistent___sho us_east_1
read persistent___sho us_east_1 us_east_2
take persistent___sho us_east_1 us_east_2 good
receipt persistent___sho us_east_1 us_east_2 good
read persistent___sho us_east_1 eu_west_1
take persistent___sho us_east_1 eu_west_1 good
receipt persistent___sho us_east_1 eu_west_1 good
read persistent___sho us_east_2 us_east_1
read persistent___sho us_east_2 eu_west_1
read persistent___sho eu_west_1 us_east_1
read persistent___sho eu_west_1 us_east_2
read persistent___sho us_east_2 us_east_1
take persistent___sho us_east_2 us_east_1 good
receipt persistent___sho us_east_2 us_east_1 good
read persistent___sho us_east_2 eu_west_1
read persistent___sho eu_west_1 us_east_1
take persistent___sho eu_west_1 us_east_1 good
receipt persistent___sho eu_west_1 us_east_1 good
read persistent___sho eu_west_1 us_east_2
read persistent___sho us_east_1 us_east_2
read persistent___sho us_east_1 eu_west_1
read persistent___sho us_east_1 us_east_2
read persistent___sho us_east_1 eu_west_1
read persistent___sho us_east_1 us_east_2
take persistent___sho us_east_1 us_east_2 good
receipt persistent___sho us_east_1 us_east_2 good
read persistent___sho us_east_1 eu_west_1
take persistent___sho us_east_1 eu_west_1 good
receipt persistent___sho us_east_1 eu_west_1 good
read persistent___sho us_east_2 us_east_1
read persistent___sho us_east_2 eu_west_1
read persistent___sho eu_west_1 us_east_1
read persistent___sho eu_west_1 us_east_2
read persistent___sho us_east_2 us_east_1
take persistent___sho us_east_2 us_east_1 good
receipt persistent___sho us_east_2 us_east_1 good
read persistent___sho us_east_2 eu_west_1
read persistent___sho eu_west_1 us_east_1
take persistent___sho eu_west_1 us_east_1 good
receipt persistent___sho eu_west_1 us_east_1 good
read persistent___sho eu_west_1 us_east_2
read persistent___sho us_east_1 us_east_2
read persistent___sho us_east_1 eu_west_1
read persistent___sho us_east_1 us_east_2
read persistent___sho us_east_1 eu_west_1
read persistent___sho us_east_1 us_east_2
read persistent___sho us_east_1 eu_west_1
