geo 1
cluster a
cluster b
topic t
topic u
client n0 t a
client n1 t a
client n2 t a
client n3 t a
client n4 t a
client n5 t a
client n6 t a
client n7 t a
client n8 t a
client n9 t a
client n10 t a
client n11 t a
client n12 t a
client n13 t a
client n14 t a
client n15 t a
client n16 t a
client n17 t a
client n18 t a
client n19 t a
client n20 t a
client n21 t a
client n22 t a
client n23 t a
client n24 t a
client n25 t a
client n26 t a
client n27 t a
client n28 t a
client n29 t a
client n30 t a
client n31 t a
