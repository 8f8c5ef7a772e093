geo 1
cluster a
cluster b
topic t
topic u
client p t a
client q u a
do p sub n0 exclusive latest local
do p sub n1 exclusive latest local
do p sub n2 exclusive latest local
do p sub n3 exclusive latest local
do p sub n4 exclusive latest local
do p sub n5 exclusive latest local
do p sub n6 exclusive latest local
do p sub n7 exclusive latest local
do p sub n8 exclusive latest local
do p sub n9 exclusive latest local
do p sub n10 exclusive latest local
do p sub n11 exclusive latest local
do p sub n12 exclusive latest local
do p sub n13 exclusive latest local
do p sub n14 exclusive latest local
do p sub n15 exclusive latest local
do p sub n16 exclusive latest local
do p sub n17 exclusive latest local
do p sub n18 exclusive latest local
do p sub n19 exclusive latest local
do p sub n20 exclusive latest local
do p sub n21 exclusive latest local
do p sub n22 exclusive latest local
do p sub n23 exclusive latest local
do p sub n24 exclusive latest local
do p sub n25 exclusive latest local
do p sub n26 exclusive latest local
do p sub n27 exclusive latest local
do p sub n28 exclusive latest local
do p sub n29 exclusive latest local
do p sub n30 exclusive latest local
do p sub n31 exclusive latest local
