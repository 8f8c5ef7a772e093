geo 1
cluster a
cluster b
topic t0
topic t1
topic t2
topic t3
topic t4
topic t5
topic t6
topic t7
topic t8
topic t9
topic t10
topic t11
topic t12
topic t13
topic t14
topic t15
client c0_0 t0 a
client c0_1 t0 a
client c0_2 t0 a
client c0_3 t0 a
client c0_4 t0 a
client c0_5 t0 a
client c0_6 t0 a
client c0_7 t0 a
client c0_8 t0 a
client c0_9 t0 a
client c0_10 t0 a
client c0_11 t0 a
client c0_12 t0 a
client c0_13 t0 a
client c0_14 t0 a
client c0_15 t0 a
client c0_16 t0 a
client c0_17 t0 a
client c0_18 t0 a
client c0_19 t0 a
client c0_20 t0 a
client c0_21 t0 a
client c0_22 t0 a
client c0_23 t0 a
client c0_24 t0 a
client c0_25 t0 a
client c0_26 t0 a
client c0_27 t0 a
client c0_28 t0 a
client c0_29 t0 a
client c0_30 t0 a
client c0_31 t0 a
client c1_0 t1 a
client c1_1 t1 a
client c1_2 t1 a
client c1_3 t1 a
client c1_4 t1 a
client c1_5 t1 a
client c1_6 t1 a
client c1_7 t1 a
client c1_8 t1 a
client c1_9 t1 a
client c1_10 t1 a
client c1_11 t1 a
client c1_12 t1 a
client c1_13 t1 a
client c1_14 t1 a
client c1_15 t1 a
client c1_16 t1 a
client c1_17 t1 a
client c1_18 t1 a
client c1_19 t1 a
client c1_20 t1 a
client c1_21 t1 a
client c1_22 t1 a
client c1_23 t1 a
client c1_24 t1 a
client c1_25 t1 a
client c1_26 t1 a
client c1_27 t1 a
client c1_28 t1 a
client c1_29 t1 a
client c1_30 t1 a
client c1_31 t1 a
client c2_0 t2 a
client c2_1 t2 a
client c2_2 t2 a
client c2_3 t2 a
client c2_4 t2 a
client c2_5 t2 a
client c2_6 t2 a
client c2_7 t2 a
client c2_8 t2 a
client c2_9 t2 a
client c2_10 t2 a
client c2_11 t2 a
client c2_12 t2 a
client c2_13 t2 a
client c2_14 t2 a
client c2_15 t2 a
client c2_16 t2 a
client c2_17 t2 a
client c2_18 t2 a
client c2_19 t2 a
client c2_20 t2 a
client c2_21 t2 a
client c2_22 t2 a
client c2_23 t2 a
client c2_24 t2 a
client c2_25 t2 a
client c2_26 t2 a
client c2_27 t2 a
client c2_28 t2 a
client c2_29 t2 a
client c2_30 t2 a
client c2_31 t2 a
client c3_0 t3 a
client c3_1 t3 a
client c3_2 t3 a
client c3_3 t3 a
client c3_4 t3 a
client c3_5 t3 a
client c3_6 t3 a
client c3_7 t3 a
client c3_8 t3 a
client c3_9 t3 a
client c3_10 t3 a
client c3_11 t3 a
client c3_12 t3 a
client c3_13 t3 a
client c3_14 t3 a
client c3_15 t3 a
client c3_16 t3 a
client c3_17 t3 a
client c3_18 t3 a
client c3_19 t3 a
client c3_20 t3 a
client c3_21 t3 a
client c3_22 t3 a
client c3_23 t3 a
client c3_24 t3 a
client c3_25 t3 a
client c3_26 t3 a
client c3_27 t3 a
client c3_28 t3 a
client c3_29 t3 a
client c3_30 t3 a
client c3_31 t3 a
client c4_0 t4 a
client c4_1 t4 a
client c4_2 t4 a
client c4_3 t4 a
client c4_4 t4 a
client c4_5 t4 a
client c4_6 t4 a
client c4_7 t4 a
client c4_8 t4 a
client c4_9 t4 a
client c4_10 t4 a
client c4_11 t4 a
client c4_12 t4 a
client c4_13 t4 a
client c4_14 t4 a
client c4_15 t4 a
client c4_16 t4 a
client c4_17 t4 a
client c4_18 t4 a
client c4_19 t4 a
client c4_20 t4 a
client c4_21 t4 a
client c4_22 t4 a
client c4_23 t4 a
client c4_24 t4 a
client c4_25 t4 a
client c4_26 t4 a
client c4_27 t4 a
client c4_28 t4 a
client c4_29 t4 a
client c4_30 t4 a
client c4_31 t4 a
client c5_0 t5 a
client c5_1 t5 a
client c5_2 t5 a
client c5_3 t5 a
client c5_4 t5 a
client c5_5 t5 a
client c5_6 t5 a
client c5_7 t5 a
client c5_8 t5 a
client c5_9 t5 a
client c5_10 t5 a
client c5_11 t5 a
client c5_12 t5 a
client c5_13 t5 a
client c5_14 t5 a
client c5_15 t5 a
client c5_16 t5 a
client c5_17 t5 a
client c5_18 t5 a
client c5_19 t5 a
client c5_20 t5 a
client c5_21 t5 a
client c5_22 t5 a
client c5_23 t5 a
client c5_24 t5 a
client c5_25 t5 a
client c5_26 t5 a
client c5_27 t5 a
client c5_28 t5 a
client c5_29 t5 a
client c5_30 t5 a
client c5_31 t5 a
client c6_0 t6 a
client c6_1 t6 a
client c6_2 t6 a
client c6_3 t6 a
client c6_4 t6 a
client c6_5 t6 a
client c6_6 t6 a
client c6_7 t6 a
client c6_8 t6 a
client c6_9 t6 a
client c6_10 t6 a
client c6_11 t6 a
client c6_12 t6 a
client c6_13 t6 a
client c6_14 t6 a
client c6_15 t6 a
client c6_16 t6 a
client c6_17 t6 a
client c6_18 t6 a
client c6_19 t6 a
client c6_20 t6 a
client c6_21 t6 a
client c6_22 t6 a
client c6_23 t6 a
client c6_24 t6 a
client c6_25 t6 a
client c6_26 t6 a
client c6_27 t6 a
client c6_28 t6 a
client c6_29 t6 a
client c6_30 t6 a
client c6_31 t6 a
client c7_0 t7 a
client c7_1 t7 a
client c7_2 t7 a
client c7_3 t7 a
client c7_4 t7 a
client c7_5 t7 a
client c7_6 t7 a
client c7_7 t7 a
client c7_8 t7 a
client c7_9 t7 a
client c7_10 t7 a
client c7_11 t7 a
client c7_12 t7 a
client c7_13 t7 a
client c7_14 t7 a
client c7_15 t7 a
client c7_16 t7 a
client c7_17 t7 a
client c7_18 t7 a
client c7_19 t7 a
client c7_20 t7 a
client c7_21 t7 a
client c7_22 t7 a
client c7_23 t7 a
client c7_24 t7 a
client c7_25 t7 a
client c7_26 t7 a
client c7_27 t7 a
client c7_28 t7 a
client c7_29 t7 a
client c7_30 t7 a
client c7_31 t7 a
client c8_0 t8 a
client c8_1 t8 a
client c8_2 t8 a
client c8_3 t8 a
client c8_4 t8 a
client c8_5 t8 a
client c8_6 t8 a
client c8_7 t8 a
client c8_8 t8 a
client c8_9 t8 a
client c8_10 t8 a
client c8_11 t8 a
client c8_12 t8 a
client c8_13 t8 a
client c8_14 t8 a
client c8_15 t8 a
client c8_16 t8 a
client c8_17 t8 a
client c8_18 t8 a
client c8_19 t8 a
client c8_20 t8 a
client c8_21 t8 a
client c8_22 t8 a
client c8_23 t8 a
client c8_24 t8 a
client c8_25 t8 a
client c8_26 t8 a
client c8_27 t8 a
client c8_28 t8 a
client c8_29 t8 a
client c8_30 t8 a
client c8_31 t8 a
client c9_0 t9 a
client c9_1 t9 a
client c9_2 t9 a
client c9_3 t9 a
client c9_4 t9 a
client c9_5 t9 a
client c9_6 t9 a
client c9_7 t9 a
client c9_8 t9 a
client c9_9 t9 a
client c9_10 t9 a
client c9_11 t9 a
client c9_12 t9 a
client c9_13 t9 a
client c9_14 t9 a
client c9_15 t9 a
client c9_16 t9 a
client c9_17 t9 a
client c9_18 t9 a
client c9_19 t9 a
client c9_20 t9 a
client c9_21 t9 a
client c9_22 t9 a
client c9_23 t9 a
client c9_24 t9 a
client c9_25 t9 a
client c9_26 t9 a
client c9_27 t9 a
client c9_28 t9 a
client c9_29 t9 a
client c9_30 t9 a
client c9_31 t9 a
client c10_0 t10 a
client c10_1 t10 a
client c10_2 t10 a
client c10_3 t10 a
client c10_4 t10 a
client c10_5 t10 a
client c10_6 t10 a
client c10_7 t10 a
client c10_8 t10 a
client c10_9 t10 a
client c10_10 t10 a
client c10_11 t10 a
client c10_12 t10 a
client c10_13 t10 a
client c10_14 t10 a
client c10_15 t10 a
client c10_16 t10 a
client c10_17 t10 a
client c10_18 t10 a
client c10_19 t10 a
client c10_20 t10 a
client c10_21 t10 a
client c10_22 t10 a
client c10_23 t10 a
client c10_24 t10 a
client c10_25 t10 a
client c10_26 t10 a
client c10_27 t10 a
client c10_28 t10 a
client c10_29 t10 a
client c10_30 t10 a
client c10_31 t10 a
client c11_0 t11 a
client c11_1 t11 a
client c11_2 t11 a
client c11_3 t11 a
client c11_4 t11 a
client c11_5 t11 a
client c11_6 t11 a
client c11_7 t11 a
client c11_8 t11 a
client c11_9 t11 a
client c11_10 t11 a
client c11_11 t11 a
client c11_12 t11 a
client c11_13 t11 a
client c11_14 t11 a
client c11_15 t11 a
client c11_16 t11 a
client c11_17 t11 a
client c11_18 t11 a
client c11_19 t11 a
client c11_20 t11 a
client c11_21 t11 a
client c11_22 t11 a
client c11_23 t11 a
client c11_24 t11 a
client c11_25 t11 a
client c11_26 t11 a
client c11_27 t11 a
client c11_28 t11 a
client c11_29 t11 a
client c11_30 t11 a
client c11_31 t11 a
client c12_0 t12 a
client c12_1 t12 a
client c12_2 t12 a
client c12_3 t12 a
client c12_4 t12 a
client c12_5 t12 a
client c12_6 t12 a
client c12_7 t12 a
client c12_8 t12 a
client c12_9 t12 a
client c12_10 t12 a
client c12_11 t12 a
client c12_12 t12 a
client c12_13 t12 a
client c12_14 t12 a
client c12_15 t12 a
client c12_16 t12 a
client c12_17 t12 a
client c12_18 t12 a
client c12_19 t12 a
client c12_20 t12 a
client c12_21 t12 a
client c12_22 t12 a
client c12_23 t12 a
client c12_24 t12 a
client c12_25 t12 a
client c12_26 t12 a
client c12_27 t12 a
client c12_28 t12 a
client c12_29 t12 a
client c12_30 t12 a
client c12_31 t12 a
client c13_0 t13 a
client c13_1 t13 a
client c13_2 t13 a
client c13_3 t13 a
client c13_4 t13 a
client c13_5 t13 a
client c13_6 t13 a
client c13_7 t13 a
client c13_8 t13 a
client c13_9 t13 a
client c13_10 t13 a
client c13_11 t13 a
client c13_12 t13 a
client c13_13 t13 a
client c13_14 t13 a
client c13_15 t13 a
client c13_16 t13 a
client c13_17 t13 a
client c13_18 t13 a
client c13_19 t13 a
client c13_20 t13 a
client c13_21 t13 a
client c13_22 t13 a
client c13_23 t13 a
client c13_24 t13 a
client c13_25 t13 a
client c13_26 t13 a
client c13_27 t13 a
client c13_28 t13 a
client c13_29 t13 a
client c13_30 t13 a
client c13_31 t13 a
client c14_0 t14 a
client c14_1 t14 a
client c14_2 t14 a
client c14_3 t14 a
client c14_4 t14 a
client c14_5 t14 a
client c14_6 t14 a
client c14_7 t14 a
client c14_8 t14 a
client c14_9 t14 a
client c14_10 t14 a
client c14_11 t14 a
client c14_12 t14 a
client c14_13 t14 a
client c14_14 t14 a
client c14_15 t14 a
client c14_16 t14 a
client c14_17 t14 a
client c14_18 t14 a
client c14_19 t14 a
client c14_20 t14 a
client c14_21 t14 a
client c14_22 t14 a
client c14_23 t14 a
client c14_24 t14 a
client c14_25 t14 a
client c14_26 t14 a
client c14_27 t14 a
client c14_28 t14 a
client c14_29 t14 a
client c14_30 t14 a
client c14_31 t14 a
client c15_0 t15 a
client c15_1 t15 a
client c15_2 t15 a
client c15_3 t15 a
client c15_4 t15 a
client c15_5 t15 a
client c15_6 t15 a
client c15_7 t15 a
client c15_8 t15 a
client c15_9 t15 a
client c15_10 t15 a
client c15_11 t15 a
client c15_12 t15 a
client c15_13 t15 a
client c15_14 t15 a
client c15_15 t15 a
client c15_16 t15 a
client c15_17 t15 a
client c15_18 t15 a
client c15_19 t15 a
client c15_20 t15 a
client c15_21 t15 a
client c15_22 t15 a
client c15_23 t15 a
client c15_24 t15 a
client c15_25 t15 a
client c15_26 t15 a
client c15_27 t15 a
client c15_28 t15 a
client c15_29 t15 a
client c15_30 t15 a
client c15_31 t15 a
do c0_0 sub s0 exclusive earliest local
do c0_1 sub s1 exclusive earliest local
do c0_2 sub s2 exclusive earliest local
do c0_3 sub s3 exclusive earliest local
do c0_4 sub s4 exclusive earliest local
do c0_5 sub s5 exclusive earliest local
do c0_6 sub s6 exclusive earliest local
do c0_7 sub s7 exclusive earliest local
do c0_8 sub s8 exclusive earliest local
do c0_9 sub s9 exclusive earliest local
do c0_10 sub s10 exclusive earliest local
do c0_11 sub s11 exclusive earliest local
do c0_12 sub s12 exclusive earliest local
do c0_13 sub s13 exclusive earliest local
do c0_14 sub s14 exclusive earliest local
do c0_15 sub s15 exclusive earliest local
do c0_16 sub s16 exclusive earliest local
do c0_17 sub s17 exclusive earliest local
do c0_18 sub s18 exclusive earliest local
do c0_19 sub s19 exclusive earliest local
do c0_20 sub s20 exclusive earliest local
do c0_21 sub s21 exclusive earliest local
do c0_22 sub s22 exclusive earliest local
do c0_23 sub s23 exclusive earliest local
do c0_24 sub s24 exclusive earliest local
do c0_25 sub s25 exclusive earliest local
do c0_26 sub s26 exclusive earliest local
do c0_27 sub s27 exclusive earliest local
do c0_28 sub s28 exclusive earliest local
do c0_29 sub s29 exclusive earliest local
do c0_30 sub s30 exclusive earliest local
do c0_31 sub s31 exclusive earliest local
do c1_0 sub s0 exclusive earliest local
do c1_1 sub s1 exclusive earliest local
do c1_2 sub s2 exclusive earliest local
do c1_3 sub s3 exclusive earliest local
do c1_4 sub s4 exclusive earliest local
do c1_5 sub s5 exclusive earliest local
do c1_6 sub s6 exclusive earliest local
do c1_7 sub s7 exclusive earliest local
do c1_8 sub s8 exclusive earliest local
do c1_9 sub s9 exclusive earliest local
do c1_10 sub s10 exclusive earliest local
do c1_11 sub s11 exclusive earliest local
do c1_12 sub s12 exclusive earliest local
do c1_13 sub s13 exclusive earliest local
do c1_14 sub s14 exclusive earliest local
do c1_15 sub s15 exclusive earliest local
do c1_16 sub s16 exclusive earliest local
do c1_17 sub s17 exclusive earliest local
do c1_18 sub s18 exclusive earliest local
do c1_19 sub s19 exclusive earliest local
do c1_20 sub s20 exclusive earliest local
do c1_21 sub s21 exclusive earliest local
do c1_22 sub s22 exclusive earliest local
do c1_23 sub s23 exclusive earliest local
do c1_24 sub s24 exclusive earliest local
do c1_25 sub s25 exclusive earliest local
do c1_26 sub s26 exclusive earliest local
do c1_27 sub s27 exclusive earliest local
do c1_28 sub s28 exclusive earliest local
do c1_29 sub s29 exclusive earliest local
do c1_30 sub s30 exclusive earliest local
do c1_31 sub s31 exclusive earliest local
do c2_0 sub s0 exclusive earliest local
do c2_1 sub s1 exclusive earliest local
do c2_2 sub s2 exclusive earliest local
do c2_3 sub s3 exclusive earliest local
do c2_4 sub s4 exclusive earliest local
do c2_5 sub s5 exclusive earliest local
do c2_6 sub s6 exclusive earliest local
do c2_7 sub s7 exclusive earliest local
do c2_8 sub s8 exclusive earliest local
do c2_9 sub s9 exclusive earliest local
do c2_10 sub s10 exclusive earliest local
do c2_11 sub s11 exclusive earliest local
do c2_12 sub s12 exclusive earliest local
do c2_13 sub s13 exclusive earliest local
do c2_14 sub s14 exclusive earliest local
do c2_15 sub s15 exclusive earliest local
do c2_16 sub s16 exclusive earliest local
do c2_17 sub s17 exclusive earliest local
do c2_18 sub s18 exclusive earliest local
do c2_19 sub s19 exclusive earliest local
do c2_20 sub s20 exclusive earliest local
do c2_21 sub s21 exclusive earliest local
do c2_22 sub s22 exclusive earliest local
do c2_23 sub s23 exclusive earliest local
do c2_24 sub s24 exclusive earliest local
do c2_25 sub s25 exclusive earliest local
do c2_26 sub s26 exclusive earliest local
do c2_27 sub s27 exclusive earliest local
do c2_28 sub s28 exclusive earliest local
do c2_29 sub s29 exclusive earliest local
do c2_30 sub s30 exclusive earliest local
do c2_31 sub s31 exclusive earliest local
do c3_0 sub s0 exclusive earliest local
do c3_1 sub s1 exclusive earliest local
do c3_2 sub s2 exclusive earliest local
do c3_3 sub s3 exclusive earliest local
do c3_4 sub s4 exclusive earliest local
do c3_5 sub s5 exclusive earliest local
do c3_6 sub s6 exclusive earliest local
do c3_7 sub s7 exclusive earliest local
do c3_8 sub s8 exclusive earliest local
do c3_9 sub s9 exclusive earliest local
do c3_10 sub s10 exclusive earliest local
do c3_11 sub s11 exclusive earliest local
do c3_12 sub s12 exclusive earliest local
do c3_13 sub s13 exclusive earliest local
do c3_14 sub s14 exclusive earliest local
do c3_15 sub s15 exclusive earliest local
do c3_16 sub s16 exclusive earliest local
do c3_17 sub s17 exclusive earliest local
do c3_18 sub s18 exclusive earliest local
do c3_19 sub s19 exclusive earliest local
do c3_20 sub s20 exclusive earliest local
do c3_21 sub s21 exclusive earliest local
do c3_22 sub s22 exclusive earliest local
do c3_23 sub s23 exclusive earliest local
do c3_24 sub s24 exclusive earliest local
do c3_25 sub s25 exclusive earliest local
do c3_26 sub s26 exclusive earliest local
do c3_27 sub s27 exclusive earliest local
do c3_28 sub s28 exclusive earliest local
do c3_29 sub s29 exclusive earliest local
do c3_30 sub s30 exclusive earliest local
do c3_31 sub s31 exclusive earliest local
do c4_0 sub s0 exclusive earliest local
do c4_1 sub s1 exclusive earliest local
do c4_2 sub s2 exclusive earliest local
do c4_3 sub s3 exclusive earliest local
do c4_4 sub s4 exclusive earliest local
do c4_5 sub s5 exclusive earliest local
do c4_6 sub s6 exclusive earliest local
do c4_7 sub s7 exclusive earliest local
do c4_8 sub s8 exclusive earliest local
do c4_9 sub s9 exclusive earliest local
do c4_10 sub s10 exclusive earliest local
do c4_11 sub s11 exclusive earliest local
do c4_12 sub s12 exclusive earliest local
do c4_13 sub s13 exclusive earliest local
do c4_14 sub s14 exclusive earliest local
do c4_15 sub s15 exclusive earliest local
do c4_16 sub s16 exclusive earliest local
do c4_17 sub s17 exclusive earliest local
do c4_18 sub s18 exclusive earliest local
do c4_19 sub s19 exclusive earliest local
do c4_20 sub s20 exclusive earliest local
do c4_21 sub s21 exclusive earliest local
do c4_22 sub s22 exclusive earliest local
do c4_23 sub s23 exclusive earliest local
do c4_24 sub s24 exclusive earliest local
do c4_25 sub s25 exclusive earliest local
do c4_26 sub s26 exclusive earliest local
do c4_27 sub s27 exclusive earliest local
do c4_28 sub s28 exclusive earliest local
do c4_29 sub s29 exclusive earliest local
do c4_30 sub s30 exclusive earliest local
do c4_31 sub s31 exclusive earliest local
do c5_0 sub s0 exclusive earliest local
do c5_1 sub s1 exclusive earliest local
do c5_2 sub s2 exclusive earliest local
do c5_3 sub s3 exclusive earliest local
do c5_4 sub s4 exclusive earliest local
do c5_5 sub s5 exclusive earliest local
do c5_6 sub s6 exclusive earliest local
do c5_7 sub s7 exclusive earliest local
do c5_8 sub s8 exclusive earliest local
do c5_9 sub s9 exclusive earliest local
do c5_10 sub s10 exclusive earliest local
do c5_11 sub s11 exclusive earliest local
do c5_12 sub s12 exclusive earliest local
do c5_13 sub s13 exclusive earliest local
do c5_14 sub s14 exclusive earliest local
do c5_15 sub s15 exclusive earliest local
do c5_16 sub s16 exclusive earliest local
do c5_17 sub s17 exclusive earliest local
do c5_18 sub s18 exclusive earliest local
do c5_19 sub s19 exclusive earliest local
do c5_20 sub s20 exclusive earliest local
do c5_21 sub s21 exclusive earliest local
do c5_22 sub s22 exclusive earliest local
do c5_23 sub s23 exclusive earliest local
do c5_24 sub s24 exclusive earliest local
do c5_25 sub s25 exclusive earliest local
do c5_26 sub s26 exclusive earliest local
do c5_27 sub s27 exclusive earliest local
do c5_28 sub s28 exclusive earliest local
do c5_29 sub s29 exclusive earliest local
do c5_30 sub s30 exclusive earliest local
do c5_31 sub s31 exclusive earliest local
do c6_0 sub s0 exclusive earliest local
do c6_1 sub s1 exclusive earliest local
do c6_2 sub s2 exclusive earliest local
do c6_3 sub s3 exclusive earliest local
do c6_4 sub s4 exclusive earliest local
do c6_5 sub s5 exclusive earliest local
do c6_6 sub s6 exclusive earliest local
do c6_7 sub s7 exclusive earliest local
do c6_8 sub s8 exclusive earliest local
do c6_9 sub s9 exclusive earliest local
do c6_10 sub s10 exclusive earliest local
do c6_11 sub s11 exclusive earliest local
do c6_12 sub s12 exclusive earliest local
do c6_13 sub s13 exclusive earliest local
do c6_14 sub s14 exclusive earliest local
do c6_15 sub s15 exclusive earliest local
do c6_16 sub s16 exclusive earliest local
do c6_17 sub s17 exclusive earliest local
do c6_18 sub s18 exclusive earliest local
do c6_19 sub s19 exclusive earliest local
do c6_20 sub s20 exclusive earliest local
do c6_21 sub s21 exclusive earliest local
do c6_22 sub s22 exclusive earliest local
do c6_23 sub s23 exclusive earliest local
do c6_24 sub s24 exclusive earliest local
do c6_25 sub s25 exclusive earliest local
do c6_26 sub s26 exclusive earliest local
do c6_27 sub s27 exclusive earliest local
do c6_28 sub s28 exclusive earliest local
do c6_29 sub s29 exclusive earliest local
do c6_30 sub s30 exclusive earliest local
do c6_31 sub s31 exclusive earliest local
do c7_0 sub s0 exclusive earliest local
do c7_1 sub s1 exclusive earliest local
do c7_2 sub s2 exclusive earliest local
do c7_3 sub s3 exclusive earliest local
do c7_4 sub s4 exclusive earliest local
do c7_5 sub s5 exclusive earliest local
do c7_6 sub s6 exclusive earliest local
do c7_7 sub s7 exclusive earliest local
do c7_8 sub s8 exclusive earliest local
do c7_9 sub s9 exclusive earliest local
do c7_10 sub s10 exclusive earliest local
do c7_11 sub s11 exclusive earliest local
do c7_12 sub s12 exclusive earliest local
do c7_13 sub s13 exclusive earliest local
do c7_14 sub s14 exclusive earliest local
do c7_15 sub s15 exclusive earliest local
do c7_16 sub s16 exclusive earliest local
do c7_17 sub s17 exclusive earliest local
do c7_18 sub s18 exclusive earliest local
do c7_19 sub s19 exclusive earliest local
do c7_20 sub s20 exclusive earliest local
do c7_21 sub s21 exclusive earliest local
do c7_22 sub s22 exclusive earliest local
do c7_23 sub s23 exclusive earliest local
do c7_24 sub s24 exclusive earliest local
do c7_25 sub s25 exclusive earliest local
do c7_26 sub s26 exclusive earliest local
do c7_27 sub s27 exclusive earliest local
do c7_28 sub s28 exclusive earliest local
do c7_29 sub s29 exclusive earliest local
do c7_30 sub s30 exclusive earliest local
do c7_31 sub s31 exclusive earliest local
do c8_0 sub s0 exclusive earliest local
do c8_1 sub s1 exclusive earliest local
do c8_2 sub s2 exclusive earliest local
do c8_3 sub s3 exclusive earliest local
do c8_4 sub s4 exclusive earliest local
do c8_5 sub s5 exclusive earliest local
do c8_6 sub s6 exclusive earliest local
do c8_7 sub s7 exclusive earliest local
do c8_8 sub s8 exclusive earliest local
do c8_9 sub s9 exclusive earliest local
do c8_10 sub s10 exclusive earliest local
do c8_11 sub s11 exclusive earliest local
do c8_12 sub s12 exclusive earliest local
do c8_13 sub s13 exclusive earliest local
do c8_14 sub s14 exclusive earliest local
do c8_15 sub s15 exclusive earliest local
do c8_16 sub s16 exclusive earliest local
do c8_17 sub s17 exclusive earliest local
do c8_18 sub s18 exclusive earliest local
do c8_19 sub s19 exclusive earliest local
do c8_20 sub s20 exclusive earliest local
do c8_21 sub s21 exclusive earliest local
do c8_22 sub s22 exclusive earliest local
do c8_23 sub s23 exclusive earliest local
do c8_24 sub s24 exclusive earliest local
do c8_25 sub s25 exclusive earliest local
do c8_26 sub s26 exclusive earliest local
do c8_27 sub s27 exclusive earliest local
do c8_28 sub s28 exclusive earliest local
do c8_29 sub s29 exclusive earliest local
do c8_30 sub s30 exclusive earliest local
do c8_31 sub s31 exclusive earliest local
do c9_0 sub s0 exclusive earliest local
do c9_1 sub s1 exclusive earliest local
do c9_2 sub s2 exclusive earliest local
do c9_3 sub s3 exclusive earliest local
do c9_4 sub s4 exclusive earliest local
do c9_5 sub s5 exclusive earliest local
do c9_6 sub s6 exclusive earliest local
do c9_7 sub s7 exclusive earliest local
do c9_8 sub s8 exclusive earliest local
do c9_9 sub s9 exclusive earliest local
do c9_10 sub s10 exclusive earliest local
do c9_11 sub s11 exclusive earliest local
do c9_12 sub s12 exclusive earliest local
do c9_13 sub s13 exclusive earliest local
do c9_14 sub s14 exclusive earliest local
do c9_15 sub s15 exclusive earliest local
do c9_16 sub s16 exclusive earliest local
do c9_17 sub s17 exclusive earliest local
do c9_18 sub s18 exclusive earliest local
do c9_19 sub s19 exclusive earliest local
do c9_20 sub s20 exclusive earliest local
do c9_21 sub s21 exclusive earliest local
do c9_22 sub s22 exclusive earliest local
do c9_23 sub s23 exclusive earliest local
do c9_24 sub s24 exclusive earliest local
do c9_25 sub s25 exclusive earliest local
do c9_26 sub s26 exclusive earliest local
do c9_27 sub s27 exclusive earliest local
do c9_28 sub s28 exclusive earliest local
do c9_29 sub s29 exclusive earliest local
do c9_30 sub s30 exclusive earliest local
do c9_31 sub s31 exclusive earliest local
do c10_0 sub s0 exclusive earliest local
do c10_1 sub s1 exclusive earliest local
do c10_2 sub s2 exclusive earliest local
do c10_3 sub s3 exclusive earliest local
do c10_4 sub s4 exclusive earliest local
do c10_5 sub s5 exclusive earliest local
do c10_6 sub s6 exclusive earliest local
do c10_7 sub s7 exclusive earliest local
do c10_8 sub s8 exclusive earliest local
do c10_9 sub s9 exclusive earliest local
do c10_10 sub s10 exclusive earliest local
do c10_11 sub s11 exclusive earliest local
do c10_12 sub s12 exclusive earliest local
do c10_13 sub s13 exclusive earliest local
do c10_14 sub s14 exclusive earliest local
do c10_15 sub s15 exclusive earliest local
do c10_16 sub s16 exclusive earliest local
do c10_17 sub s17 exclusive earliest local
do c10_18 sub s18 exclusive earliest local
do c10_19 sub s19 exclusive earliest local
do c10_20 sub s20 exclusive earliest local
do c10_21 sub s21 exclusive earliest local
do c10_22 sub s22 exclusive earliest local
do c10_23 sub s23 exclusive earliest local
do c10_24 sub s24 exclusive earliest local
do c10_25 sub s25 exclusive earliest local
do c10_26 sub s26 exclusive earliest local
do c10_27 sub s27 exclusive earliest local
do c10_28 sub s28 exclusive earliest local
do c10_29 sub s29 exclusive earliest local
do c10_30 sub s30 exclusive earliest local
do c10_31 sub s31 exclusive earliest local
do c11_0 sub s0 exclusive earliest local
do c11_1 sub s1 exclusive earliest local
do c11_2 sub s2 exclusive earliest local
do c11_3 sub s3 exclusive earliest local
do c11_4 sub s4 exclusive earliest local
do c11_5 sub s5 exclusive earliest local
do c11_6 sub s6 exclusive earliest local
do c11_7 sub s7 exclusive earliest local
do c11_8 sub s8 exclusive earliest local
do c11_9 sub s9 exclusive earliest local
do c11_10 sub s10 exclusive earliest local
do c11_11 sub s11 exclusive earliest local
do c11_12 sub s12 exclusive earliest local
do c11_13 sub s13 exclusive earliest local
do c11_14 sub s14 exclusive earliest local
do c11_15 sub s15 exclusive earliest local
do c11_16 sub s16 exclusive earliest local
do c11_17 sub s17 exclusive earliest local
do c11_18 sub s18 exclusive earliest local
do c11_19 sub s19 exclusive earliest local
do c11_20 sub s20 exclusive earliest local
do c11_21 sub s21 exclusive earliest local
do c11_22 sub s22 exclusive earliest local
do c11_23 sub s23 exclusive earliest local
do c11_24 sub s24 exclusive earliest local
do c11_25 sub s25 exclusive earliest local
do c11_26 sub s26 exclusive earliest local
do c11_27 sub s27 exclusive earliest local
do c11_28 sub s28 exclusive earliest local
do c11_29 sub s29 exclusive earliest local
do c11_30 sub s30 exclusive earliest local
do c11_31 sub s31 exclusive earliest local
do c12_0 sub s0 exclusive earliest local
do c12_1 sub s1 exclusive earliest local
do c12_2 sub s2 exclusive earliest local
do c12_3 sub s3 exclusive earliest local
do c12_4 sub s4 exclusive earliest local
do c12_5 sub s5 exclusive earliest local
do c12_6 sub s6 exclusive earliest local
do c12_7 sub s7 exclusive earliest local
do c12_8 sub s8 exclusive earliest local
do c12_9 sub s9 exclusive earliest local
do c12_10 sub s10 exclusive earliest local
do c12_11 sub s11 exclusive earliest local
do c12_12 sub s12 exclusive earliest local
do c12_13 sub s13 exclusive earliest local
do c12_14 sub s14 exclusive earliest local
do c12_15 sub s15 exclusive earliest local
do c12_16 sub s16 exclusive earliest local
do c12_17 sub s17 exclusive earliest local
do c12_18 sub s18 exclusive earliest local
do c12_19 sub s19 exclusive earliest local
do c12_20 sub s20 exclusive earliest local
do c12_21 sub s21 exclusive earliest local
do c12_22 sub s22 exclusive earliest local
do c12_23 sub s23 exclusive earliest local
do c12_24 sub s24 exclusive earliest local
do c12_25 sub s25 exclusive earliest local
do c12_26 sub s26 exclusive earliest local
do c12_27 sub s27 exclusive earliest local
do c12_28 sub s28 exclusive earliest local
do c12_29 sub s29 exclusive earliest local
do c12_30 sub s30 exclusive earliest local
do c12_31 sub s31 exclusive earliest local
do c13_0 sub s0 exclusive earliest local
do c13_1 sub s1 exclusive earliest local
do c13_2 sub s2 exclusive earliest local
do c13_3 sub s3 exclusive earliest local
do c13_4 sub s4 exclusive earliest local
do c13_5 sub s5 exclusive earliest local
do c13_6 sub s6 exclusive earliest local
do c13_7 sub s7 exclusive earliest local
do c13_8 sub s8 exclusive earliest local
do c13_9 sub s9 exclusive earliest local
do c13_10 sub s10 exclusive earliest local
do c13_11 sub s11 exclusive earliest local
do c13_12 sub s12 exclusive earliest local
do c13_13 sub s13 exclusive earliest local
do c13_14 sub s14 exclusive earliest local
do c13_15 sub s15 exclusive earliest local
do c13_16 sub s16 exclusive earliest local
do c13_17 sub s17 exclusive earliest local
do c13_18 sub s18 exclusive earliest local
do c13_19 sub s19 exclusive earliest local
do c13_20 sub s20 exclusive earliest local
do c13_21 sub s21 exclusive earliest local
do c13_22 sub s22 exclusive earliest local
do c13_23 sub s23 exclusive earliest local
do c13_24 sub s24 exclusive earliest local
do c13_25 sub s25 exclusive earliest local
do c13_26 sub s26 exclusive earliest local
do c13_27 sub s27 exclusive earliest local
do c13_28 sub s28 exclusive earliest local
do c13_29 sub s29 exclusive earliest local
do c13_30 sub s30 exclusive earliest local
do c13_31 sub s31 exclusive earliest local
do c14_0 sub s0 exclusive earliest local
do c14_1 sub s1 exclusive earliest local
do c14_2 sub s2 exclusive earliest local
do c14_3 sub s3 exclusive earliest local
do c14_4 sub s4 exclusive earliest local
do c14_5 sub s5 exclusive earliest local
do c14_6 sub s6 exclusive earliest local
do c14_7 sub s7 exclusive earliest local
do c14_8 sub s8 exclusive earliest local
do c14_9 sub s9 exclusive earliest local
do c14_10 sub s10 exclusive earliest local
do c14_11 sub s11 exclusive earliest local
do c14_12 sub s12 exclusive earliest local
do c14_13 sub s13 exclusive earliest local
do c14_14 sub s14 exclusive earliest local
do c14_15 sub s15 exclusive earliest local
do c14_16 sub s16 exclusive earliest local
do c14_17 sub s17 exclusive earliest local
do c14_18 sub s18 exclusive earliest local
do c14_19 sub s19 exclusive earliest local
do c14_20 sub s20 exclusive earliest local
do c14_21 sub s21 exclusive earliest local
do c14_22 sub s22 exclusive earliest local
do c14_23 sub s23 exclusive earliest local
do c14_24 sub s24 exclusive earliest local
do c14_25 sub s25 exclusive earliest local
do c14_26 sub s26 exclusive earliest local
do c14_27 sub s27 exclusive earliest local
do c14_28 sub s28 exclusive earliest local
do c14_29 sub s29 exclusive earliest local
do c14_30 sub s30 exclusive earliest local
do c14_31 sub s31 exclusive earliest local
do c15_0 sub s0 exclusive earliest local
do c15_0 flow 4
do c15_0 ack a c15_31 0
do c15_0 ack a c15_31 1
do c15_0 ack a c15_31 2
do c15_0 ack a c15_31 3
do c15_1 sub s1 exclusive earliest local
do c15_1 flow 4
do c15_1 ack a c15_31 0
do c15_1 ack a c15_31 1
do c15_1 ack a c15_31 2
do c15_1 ack a c15_31 3
do c15_2 sub s2 exclusive earliest local
do c15_2 flow 4
do c15_2 ack a c15_31 0
do c15_2 ack a c15_31 1
do c15_2 ack a c15_31 2
do c15_2 ack a c15_31 3
do c15_3 sub s3 exclusive earliest local
do c15_3 flow 4
do c15_3 ack a c15_31 0
do c15_3 ack a c15_31 1
do c15_3 ack a c15_31 2
do c15_3 ack a c15_31 3
do c15_4 sub s4 exclusive earliest local
do c15_4 flow 4
do c15_4 ack a c15_31 0
do c15_4 ack a c15_31 1
do c15_4 ack a c15_31 2
do c15_4 ack a c15_31 3
do c15_5 sub s5 exclusive earliest local
do c15_5 flow 4
do c15_5 ack a c15_31 0
do c15_5 ack a c15_31 1
do c15_5 ack a c15_31 2
do c15_5 ack a c15_31 3
do c15_6 sub s6 exclusive earliest local
do c15_6 flow 4
do c15_6 ack a c15_31 0
do c15_6 ack a c15_31 1
do c15_6 ack a c15_31 2
do c15_6 ack a c15_31 3
do c15_7 sub s7 exclusive earliest local
do c15_7 flow 4
do c15_7 ack a c15_31 0
do c15_7 ack a c15_31 1
do c15_7 ack a c15_31 2
do c15_7 ack a c15_31 3
do c15_8 sub s8 exclusive earliest local
do c15_8 flow 4
do c15_8 ack a c15_31 0
do c15_8 ack a c15_31 1
do c15_8 ack a c15_31 2
do c15_8 ack a c15_31 3
do c15_9 sub s9 exclusive earliest local
do c15_9 flow 4
do c15_9 ack a c15_31 0
do c15_9 ack a c15_31 1
do c15_9 ack a c15_31 2
do c15_9 ack a c15_31 3
do c15_10 sub s10 exclusive earliest local
do c15_10 flow 4
do c15_10 ack a c15_31 0
do c15_10 ack a c15_31 1
do c15_10 ack a c15_31 2
do c15_10 ack a c15_31 3
do c15_11 sub s11 exclusive earliest local
do c15_11 flow 4
do c15_11 ack a c15_31 0
do c15_11 ack a c15_31 1
do c15_11 ack a c15_31 2
do c15_11 ack a c15_31 3
do c15_12 sub s12 exclusive earliest local
do c15_12 flow 4
do c15_12 ack a c15_31 0
do c15_12 ack a c15_31 1
do c15_12 ack a c15_31 2
do c15_12 ack a c15_31 3
do c15_13 sub s13 exclusive earliest local
do c15_13 flow 4
do c15_13 ack a c15_31 0
do c15_13 ack a c15_31 1
do c15_13 ack a c15_31 2
do c15_13 ack a c15_31 3
do c15_14 sub s14 exclusive earliest local
do c15_14 flow 4
do c15_14 ack a c15_31 0
do c15_14 ack a c15_31 1
do c15_14 ack a c15_31 2
do c15_14 ack a c15_31 3
do c15_15 sub s15 exclusive earliest local
do c15_15 flow 4
do c15_15 ack a c15_31 0
do c15_15 ack a c15_31 1
do c15_15 ack a c15_31 2
do c15_15 ack a c15_31 3
do c15_16 sub s16 exclusive earliest local
do c15_16 flow 4
do c15_16 ack a c15_31 0
do c15_16 ack a c15_31 1
do c15_16 ack a c15_31 2
do c15_16 ack a c15_31 3
do c15_17 sub s17 exclusive earliest local
do c15_17 flow 4
do c15_17 ack a c15_31 0
do c15_17 ack a c15_31 1
do c15_17 ack a c15_31 2
do c15_17 ack a c15_31 3
do c15_18 sub s18 exclusive earliest local
do c15_18 flow 4
do c15_18 ack a c15_31 0
do c15_18 ack a c15_31 1
do c15_18 ack a c15_31 2
do c15_18 ack a c15_31 3
do c15_19 sub s19 exclusive earliest local
do c15_19 flow 4
do c15_19 ack a c15_31 0
do c15_19 ack a c15_31 1
do c15_19 ack a c15_31 2
do c15_19 ack a c15_31 3
do c15_20 sub s20 exclusive earliest local
do c15_20 flow 4
do c15_20 ack a c15_31 0
do c15_20 ack a c15_31 1
do c15_20 ack a c15_31 2
do c15_20 ack a c15_31 3
do c15_21 sub s21 exclusive earliest local
do c15_21 flow 4
do c15_21 ack a c15_31 0
do c15_21 ack a c15_31 1
do c15_21 ack a c15_31 2
do c15_21 ack a c15_31 3
do c15_22 sub s22 exclusive earliest local
do c15_22 flow 4
do c15_22 ack a c15_31 0
do c15_22 ack a c15_31 1
do c15_22 ack a c15_31 2
do c15_22 ack a c15_31 3
do c15_23 sub s23 exclusive earliest local
do c15_23 flow 4
do c15_23 ack a c15_31 0
do c15_23 ack a c15_31 1
do c15_23 ack a c15_31 2
do c15_23 ack a c15_31 3
do c15_24 sub s24 exclusive earliest local
do c15_24 flow 4
do c15_24 ack a c15_31 0
do c15_24 ack a c15_31 1
do c15_24 ack a c15_31 2
do c15_24 ack a c15_31 3
do c15_25 sub s25 exclusive earliest local
do c15_25 flow 4
do c15_25 ack a c15_31 0
do c15_25 ack a c15_31 1
do c15_25 ack a c15_31 2
do c15_25 ack a c15_31 3
do c15_26 sub s26 exclusive earliest local
do c15_26 flow 4
do c15_26 ack a c15_31 0
do c15_26 ack a c15_31 1
do c15_26 ack a c15_31 2
do c15_26 ack a c15_31 3
do c15_27 sub s27 exclusive earliest local
do c15_27 flow 4
do c15_27 ack a c15_31 0
do c15_27 ack a c15_31 1
do c15_27 ack a c15_31 2
do c15_27 ack a c15_31 3
do c15_28 sub s28 exclusive earliest local
do c15_28 flow 4
do c15_28 ack a c15_31 0
do c15_28 ack a c15_31 1
do c15_28 ack a c15_31 2
do c15_28 ack a c15_31 3
do c15_29 sub s29 exclusive earliest local
do c15_29 flow 4
do c15_29 ack a c15_31 0
do c15_29 ack a c15_31 1
do c15_29 ack a c15_31 2
do c15_29 ack a c15_31 3
do c15_30 sub s30 exclusive earliest local
do c15_30 flow 4
do c15_30 ack a c15_31 0
do c15_30 ack a c15_31 1
do c15_30 ack a c15_31 2
do c15_30 ack a c15_31 3
do c15_31 sub s31 exclusive earliest local
do c15_31 flow 4
do c15_31 produce
do c15_31 pub 0 * - c15_310
do c15_31 ack a c15_31 0
do c15_31 pub 1 * - c15_311
do c15_31 ack a c15_31 1
do c15_31 pub 2 * - c15_312
do c15_31 ack a c15_31 2
do c15_31 pub 3 * - c15_313
do c15_31 ack a c15_31 3
reconnect c0_0
serve a c0_0
go c0_0
serve a c0_0
get c0_0
get c0_0
reconnect c0_1
serve a c0_1
go c0_1
serve a c0_1
get c0_1
get c0_1
reconnect c0_2
serve a c0_2
go c0_2
serve a c0_2
get c0_2
get c0_2
reconnect c0_3
serve a c0_3
go c0_3
serve a c0_3
get c0_3
get c0_3
reconnect c0_4
serve a c0_4
go c0_4
serve a c0_4
get c0_4
get c0_4
reconnect c0_5
serve a c0_5
go c0_5
serve a c0_5
get c0_5
get c0_5
reconnect c0_6
serve a c0_6
go c0_6
serve a c0_6
get c0_6
get c0_6
reconnect c0_7
serve a c0_7
go c0_7
serve a c0_7
get c0_7
get c0_7
reconnect c0_8
serve a c0_8
go c0_8
serve a c0_8
get c0_8
get c0_8
reconnect c0_9
serve a c0_9
go c0_9
serve a c0_9
get c0_9
get c0_9
reconnect c0_10
serve a c0_10
go c0_10
serve a c0_10
get c0_10
get c0_10
reconnect c0_11
serve a c0_11
go c0_11
serve a c0_11
get c0_11
get c0_11
reconnect c0_12
serve a c0_12
go c0_12
serve a c0_12
get c0_12
get c0_12
reconnect c0_13
serve a c0_13
go c0_13
serve a c0_13
get c0_13
get c0_13
reconnect c0_14
serve a c0_14
go c0_14
serve a c0_14
get c0_14
get c0_14
reconnect c0_15
serve a c0_15
go c0_15
serve a c0_15
get c0_15
get c0_15
reconnect c0_16
serve a c0_16
go c0_16
serve a c0_16
get c0_16
get c0_16
reconnect c0_17
serve a c0_17
go c0_17
serve a c0_17
get c0_17
get c0_17
reconnect c0_18
serve a c0_18
go c0_18
serve a c0_18
get c0_18
get c0_18
reconnect c0_19
serve a c0_19
go c0_19
serve a c0_19
get c0_19
get c0_19
reconnect c0_20
serve a c0_20
go c0_20
serve a c0_20
get c0_20
get c0_20
reconnect c0_21
serve a c0_21
go c0_21
serve a c0_21
get c0_21
get c0_21
reconnect c0_22
serve a c0_22
go c0_22
serve a c0_22
get c0_22
get c0_22
reconnect c0_23
serve a c0_23
go c0_23
serve a c0_23
get c0_23
get c0_23
reconnect c0_24
serve a c0_24
go c0_24
serve a c0_24
get c0_24
get c0_24
reconnect c0_25
serve a c0_25
go c0_25
serve a c0_25
get c0_25
get c0_25
reconnect c0_26
serve a c0_26
go c0_26
serve a c0_26
get c0_26
get c0_26
reconnect c0_27
serve a c0_27
go c0_27
serve a c0_27
get c0_27
get c0_27
reconnect c0_28
serve a c0_28
go c0_28
serve a c0_28
get c0_28
get c0_28
reconnect c0_29
serve a c0_29
go c0_29
serve a c0_29
get c0_29
get c0_29
reconnect c0_30
serve a c0_30
go c0_30
serve a c0_30
get c0_30
get c0_30
reconnect c0_31
serve a c0_31
go c0_31
serve a c0_31
get c0_31
get c0_31
reconnect c1_0
serve a c1_0
go c1_0
serve a c1_0
get c1_0
get c1_0
reconnect c1_1
serve a c1_1
go c1_1
serve a c1_1
get c1_1
get c1_1
reconnect c1_2
serve a c1_2
go c1_2
serve a c1_2
get c1_2
get c1_2
reconnect c1_3
serve a c1_3
go c1_3
serve a c1_3
get c1_3
get c1_3
reconnect c1_4
serve a c1_4
go c1_4
serve a c1_4
get c1_4
get c1_4
reconnect c1_5
serve a c1_5
go c1_5
serve a c1_5
get c1_5
get c1_5
reconnect c1_6
serve a c1_6
go c1_6
serve a c1_6
get c1_6
get c1_6
reconnect c1_7
serve a c1_7
go c1_7
serve a c1_7
get c1_7
get c1_7
reconnect c1_8
serve a c1_8
go c1_8
serve a c1_8
get c1_8
get c1_8
reconnect c1_9
serve a c1_9
go c1_9
serve a c1_9
get c1_9
get c1_9
reconnect c1_10
serve a c1_10
go c1_10
serve a c1_10
get c1_10
get c1_10
reconnect c1_11
serve a c1_11
go c1_11
serve a c1_11
get c1_11
get c1_11
reconnect c1_12
serve a c1_12
go c1_12
serve a c1_12
get c1_12
get c1_12
reconnect c1_13
serve a c1_13
go c1_13
serve a c1_13
get c1_13
get c1_13
reconnect c1_14
serve a c1_14
go c1_14
serve a c1_14
get c1_14
get c1_14
reconnect c1_15
serve a c1_15
go c1_15
serve a c1_15
get c1_15
get c1_15
reconnect c1_16
serve a c1_16
go c1_16
serve a c1_16
get c1_16
get c1_16
reconnect c1_17
serve a c1_17
go c1_17
serve a c1_17
get c1_17
get c1_17
reconnect c1_18
serve a c1_18
go c1_18
serve a c1_18
get c1_18
get c1_18
reconnect c1_19
serve a c1_19
go c1_19
serve a c1_19
get c1_19
get c1_19
reconnect c1_20
serve a c1_20
go c1_20
serve a c1_20
get c1_20
get c1_20
reconnect c1_21
serve a c1_21
go c1_21
serve a c1_21
get c1_21
get c1_21
reconnect c1_22
serve a c1_22
go c1_22
serve a c1_22
get c1_22
get c1_22
reconnect c1_23
serve a c1_23
go c1_23
serve a c1_23
get c1_23
get c1_23
reconnect c1_24
serve a c1_24
go c1_24
serve a c1_24
get c1_24
get c1_24
reconnect c1_25
serve a c1_25
go c1_25
serve a c1_25
get c1_25
get c1_25
reconnect c1_26
serve a c1_26
go c1_26
serve a c1_26
get c1_26
get c1_26
reconnect c1_27
serve a c1_27
go c1_27
serve a c1_27
get c1_27
get c1_27
reconnect c1_28
serve a c1_28
go c1_28
serve a c1_28
get c1_28
get c1_28
reconnect c1_29
serve a c1_29
go c1_29
serve a c1_29
get c1_29
get c1_29
reconnect c1_30
serve a c1_30
go c1_30
serve a c1_30
get c1_30
get c1_30
reconnect c1_31
serve a c1_31
go c1_31
serve a c1_31
get c1_31
get c1_31
reconnect c2_0
serve a c2_0
go c2_0
serve a c2_0
get c2_0
get c2_0
reconnect c2_1
serve a c2_1
go c2_1
serve a c2_1
get c2_1
get c2_1
reconnect c2_2
serve a c2_2
go c2_2
serve a c2_2
get c2_2
get c2_2
reconnect c2_3
serve a c2_3
go c2_3
serve a c2_3
get c2_3
get c2_3
reconnect c2_4
serve a c2_4
go c2_4
serve a c2_4
get c2_4
get c2_4
reconnect c2_5
serve a c2_5
go c2_5
serve a c2_5
get c2_5
get c2_5
reconnect c2_6
serve a c2_6
go c2_6
serve a c2_6
get c2_6
get c2_6
reconnect c2_7
serve a c2_7
go c2_7
serve a c2_7
get c2_7
get c2_7
reconnect c2_8
serve a c2_8
go c2_8
serve a c2_8
get c2_8
get c2_8
reconnect c2_9
serve a c2_9
go c2_9
serve a c2_9
get c2_9
get c2_9
reconnect c2_10
serve a c2_10
go c2_10
serve a c2_10
get c2_10
get c2_10
reconnect c2_11
serve a c2_11
go c2_11
serve a c2_11
get c2_11
get c2_11
reconnect c2_12
serve a c2_12
go c2_12
serve a c2_12
get c2_12
get c2_12
reconnect c2_13
serve a c2_13
go c2_13
serve a c2_13
get c2_13
get c2_13
reconnect c2_14
serve a c2_14
go c2_14
serve a c2_14
get c2_14
get c2_14
reconnect c2_15
serve a c2_15
go c2_15
serve a c2_15
get c2_15
get c2_15
reconnect c2_16
serve a c2_16
go c2_16
serve a c2_16
get c2_16
get c2_16
reconnect c2_17
serve a c2_17
go c2_17
serve a c2_17
get c2_17
get c2_17
reconnect c2_18
serve a c2_18
go c2_18
serve a c2_18
get c2_18
get c2_18
reconnect c2_19
serve a c2_19
go c2_19
serve a c2_19
get c2_19
get c2_19
reconnect c2_20
serve a c2_20
go c2_20
serve a c2_20
get c2_20
get c2_20
reconnect c2_21
serve a c2_21
go c2_21
serve a c2_21
get c2_21
get c2_21
reconnect c2_22
serve a c2_22
go c2_22
serve a c2_22
get c2_22
get c2_22
reconnect c2_23
serve a c2_23
go c2_23
serve a c2_23
get c2_23
get c2_23
reconnect c2_24
serve a c2_24
go c2_24
serve a c2_24
get c2_24
get c2_24
reconnect c2_25
serve a c2_25
go c2_25
serve a c2_25
get c2_25
get c2_25
reconnect c2_26
serve a c2_26
go c2_26
serve a c2_26
get c2_26
get c2_26
reconnect c2_27
serve a c2_27
go c2_27
serve a c2_27
get c2_27
get c2_27
reconnect c2_28
serve a c2_28
go c2_28
serve a c2_28
get c2_28
get c2_28
reconnect c2_29
serve a c2_29
go c2_29
serve a c2_29
get c2_29
get c2_29
reconnect c2_30
serve a c2_30
go c2_30
serve a c2_30
get c2_30
get c2_30
reconnect c2_31
serve a c2_31
go c2_31
serve a c2_31
get c2_31
get c2_31
reconnect c3_0
serve a c3_0
go c3_0
serve a c3_0
get c3_0
get c3_0
reconnect c3_1
serve a c3_1
go c3_1
serve a c3_1
get c3_1
get c3_1
reconnect c3_2
serve a c3_2
go c3_2
serve a c3_2
get c3_2
get c3_2
reconnect c3_3
serve a c3_3
go c3_3
serve a c3_3
get c3_3
get c3_3
reconnect c3_4
serve a c3_4
go c3_4
serve a c3_4
get c3_4
get c3_4
reconnect c3_5
serve a c3_5
go c3_5
serve a c3_5
get c3_5
get c3_5
reconnect c3_6
serve a c3_6
go c3_6
serve a c3_6
get c3_6
get c3_6
reconnect c3_7
serve a c3_7
go c3_7
serve a c3_7
get c3_7
get c3_7
reconnect c3_8
serve a c3_8
go c3_8
serve a c3_8
get c3_8
get c3_8
reconnect c3_9
serve a c3_9
go c3_9
serve a c3_9
get c3_9
get c3_9
reconnect c3_10
serve a c3_10
go c3_10
serve a c3_10
get c3_10
get c3_10
reconnect c3_11
serve a c3_11
go c3_11
serve a c3_11
get c3_11
get c3_11
reconnect c3_12
serve a c3_12
go c3_12
serve a c3_12
get c3_12
get c3_12
reconnect c3_13
serve a c3_13
go c3_13
serve a c3_13
get c3_13
get c3_13
reconnect c3_14
serve a c3_14
go c3_14
serve a c3_14
get c3_14
get c3_14
reconnect c3_15
serve a c3_15
go c3_15
serve a c3_15
get c3_15
get c3_15
reconnect c3_16
serve a c3_16
go c3_16
serve a c3_16
get c3_16
get c3_16
reconnect c3_17
serve a c3_17
go c3_17
serve a c3_17
get c3_17
get c3_17
reconnect c3_18
serve a c3_18
go c3_18
serve a c3_18
get c3_18
get c3_18
reconnect c3_19
serve a c3_19
go c3_19
serve a c3_19
get c3_19
get c3_19
reconnect c3_20
serve a c3_20
go c3_20
serve a c3_20
get c3_20
get c3_20
reconnect c3_21
serve a c3_21
go c3_21
serve a c3_21
get c3_21
get c3_21
reconnect c3_22
serve a c3_22
go c3_22
serve a c3_22
get c3_22
get c3_22
reconnect c3_23
serve a c3_23
go c3_23
serve a c3_23
get c3_23
get c3_23
reconnect c3_24
serve a c3_24
go c3_24
serve a c3_24
get c3_24
get c3_24
reconnect c3_25
serve a c3_25
go c3_25
serve a c3_25
get c3_25
get c3_25
reconnect c3_26
serve a c3_26
go c3_26
serve a c3_26
get c3_26
get c3_26
reconnect c3_27
serve a c3_27
go c3_27
serve a c3_27
get c3_27
get c3_27
reconnect c3_28
serve a c3_28
go c3_28
serve a c3_28
get c3_28
get c3_28
reconnect c3_29
serve a c3_29
go c3_29
serve a c3_29
get c3_29
get c3_29
reconnect c3_30
serve a c3_30
go c3_30
serve a c3_30
get c3_30
get c3_30
reconnect c3_31
serve a c3_31
go c3_31
serve a c3_31
get c3_31
get c3_31
reconnect c4_0
serve a c4_0
go c4_0
serve a c4_0
get c4_0
get c4_0
reconnect c4_1
serve a c4_1
go c4_1
serve a c4_1
get c4_1
get c4_1
reconnect c4_2
serve a c4_2
go c4_2
serve a c4_2
get c4_2
get c4_2
reconnect c4_3
serve a c4_3
go c4_3
serve a c4_3
get c4_3
get c4_3
reconnect c4_4
serve a c4_4
go c4_4
serve a c4_4
get c4_4
get c4_4
reconnect c4_5
serve a c4_5
go c4_5
serve a c4_5
get c4_5
get c4_5
reconnect c4_6
serve a c4_6
go c4_6
serve a c4_6
get c4_6
get c4_6
reconnect c4_7
serve a c4_7
go c4_7
serve a c4_7
get c4_7
get c4_7
reconnect c4_8
serve a c4_8
go c4_8
serve a c4_8
get c4_8
get c4_8
reconnect c4_9
serve a c4_9
go c4_9
serve a c4_9
get c4_9
get c4_9
reconnect c4_10
serve a c4_10
go c4_10
serve a c4_10
get c4_10
get c4_10
reconnect c4_11
serve a c4_11
go c4_11
serve a c4_11
get c4_11
get c4_11
reconnect c4_12
serve a c4_12
go c4_12
serve a c4_12
get c4_12
get c4_12
reconnect c4_13
serve a c4_13
go c4_13
serve a c4_13
get c4_13
get c4_13
reconnect c4_14
serve a c4_14
go c4_14
serve a c4_14
get c4_14
get c4_14
reconnect c4_15
serve a c4_15
go c4_15
serve a c4_15
get c4_15
get c4_15
reconnect c4_16
serve a c4_16
go c4_16
serve a c4_16
get c4_16
get c4_16
reconnect c4_17
serve a c4_17
go c4_17
serve a c4_17
get c4_17
get c4_17
reconnect c4_18
serve a c4_18
go c4_18
serve a c4_18
get c4_18
get c4_18
reconnect c4_19
serve a c4_19
go c4_19
serve a c4_19
get c4_19
get c4_19
reconnect c4_20
serve a c4_20
go c4_20
serve a c4_20
get c4_20
get c4_20
reconnect c4_21
serve a c4_21
go c4_21
serve a c4_21
get c4_21
get c4_21
reconnect c4_22
serve a c4_22
go c4_22
serve a c4_22
get c4_22
get c4_22
reconnect c4_23
serve a c4_23
go c4_23
serve a c4_23
get c4_23
get c4_23
reconnect c4_24
serve a c4_24
go c4_24
serve a c4_24
get c4_24
get c4_24
reconnect c4_25
serve a c4_25
go c4_25
serve a c4_25
get c4_25
get c4_25
reconnect c4_26
serve a c4_26
go c4_26
serve a c4_26
get c4_26
get c4_26
reconnect c4_27
serve a c4_27
go c4_27
serve a c4_27
get c4_27
get c4_27
reconnect c4_28
serve a c4_28
go c4_28
serve a c4_28
get c4_28
get c4_28
reconnect c4_29
serve a c4_29
go c4_29
serve a c4_29
get c4_29
get c4_29
reconnect c4_30
serve a c4_30
go c4_30
serve a c4_30
get c4_30
get c4_30
reconnect c4_31
serve a c4_31
go c4_31
serve a c4_31
get c4_31
get c4_31
reconnect c5_0
serve a c5_0
go c5_0
serve a c5_0
get c5_0
get c5_0
reconnect c5_1
serve a c5_1
go c5_1
serve a c5_1
get c5_1
get c5_1
reconnect c5_2
serve a c5_2
go c5_2
serve a c5_2
get c5_2
get c5_2
reconnect c5_3
serve a c5_3
go c5_3
serve a c5_3
get c5_3
get c5_3
reconnect c5_4
serve a c5_4
go c5_4
serve a c5_4
get c5_4
get c5_4
reconnect c5_5
serve a c5_5
go c5_5
serve a c5_5
get c5_5
get c5_5
reconnect c5_6
serve a c5_6
go c5_6
serve a c5_6
get c5_6
get c5_6
reconnect c5_7
serve a c5_7
go c5_7
serve a c5_7
get c5_7
get c5_7
reconnect c5_8
serve a c5_8
go c5_8
serve a c5_8
get c5_8
get c5_8
reconnect c5_9
serve a c5_9
go c5_9
serve a c5_9
get c5_9
get c5_9
reconnect c5_10
serve a c5_10
go c5_10
serve a c5_10
get c5_10
get c5_10
reconnect c5_11
serve a c5_11
go c5_11
serve a c5_11
get c5_11
get c5_11
reconnect c5_12
serve a c5_12
go c5_12
serve a c5_12
get c5_12
get c5_12
reconnect c5_13
serve a c5_13
go c5_13
serve a c5_13
get c5_13
get c5_13
reconnect c5_14
serve a c5_14
go c5_14
serve a c5_14
get c5_14
get c5_14
reconnect c5_15
serve a c5_15
go c5_15
serve a c5_15
get c5_15
get c5_15
reconnect c5_16
serve a c5_16
go c5_16
serve a c5_16
get c5_16
get c5_16
reconnect c5_17
serve a c5_17
go c5_17
serve a c5_17
get c5_17
get c5_17
reconnect c5_18
serve a c5_18
go c5_18
serve a c5_18
get c5_18
get c5_18
reconnect c5_19
serve a c5_19
go c5_19
serve a c5_19
get c5_19
get c5_19
reconnect c5_20
serve a c5_20
go c5_20
serve a c5_20
get c5_20
get c5_20
reconnect c5_21
serve a c5_21
go c5_21
serve a c5_21
get c5_21
get c5_21
reconnect c5_22
serve a c5_22
go c5_22
serve a c5_22
get c5_22
get c5_22
reconnect c5_23
serve a c5_23
go c5_23
serve a c5_23
get c5_23
get c5_23
reconnect c5_24
serve a c5_24
go c5_24
serve a c5_24
get c5_24
get c5_24
reconnect c5_25
serve a c5_25
go c5_25
serve a c5_25
get c5_25
get c5_25
reconnect c5_26
serve a c5_26
go c5_26
serve a c5_26
get c5_26
get c5_26
reconnect c5_27
serve a c5_27
go c5_27
serve a c5_27
get c5_27
get c5_27
reconnect c5_28
serve a c5_28
go c5_28
serve a c5_28
get c5_28
get c5_28
reconnect c5_29
serve a c5_29
go c5_29
serve a c5_29
get c5_29
get c5_29
reconnect c5_30
serve a c5_30
go c5_30
serve a c5_30
get c5_30
get c5_30
reconnect c5_31
serve a c5_31
go c5_31
serve a c5_31
get c5_31
get c5_31
reconnect c6_0
serve a c6_0
go c6_0
serve a c6_0
get c6_0
get c6_0
reconnect c6_1
serve a c6_1
go c6_1
serve a c6_1
get c6_1
get c6_1
reconnect c6_2
serve a c6_2
go c6_2
serve a c6_2
get c6_2
get c6_2
reconnect c6_3
serve a c6_3
go c6_3
serve a c6_3
get c6_3
get c6_3
reconnect c6_4
serve a c6_4
go c6_4
serve a c6_4
get c6_4
get c6_4
reconnect c6_5
serve a c6_5
go c6_5
serve a c6_5
get c6_5
get c6_5
reconnect c6_6
serve a c6_6
go c6_6
serve a c6_6
get c6_6
get c6_6
reconnect c6_7
serve a c6_7
go c6_7
serve a c6_7
get c6_7
get c6_7
reconnect c6_8
serve a c6_8
go c6_8
serve a c6_8
get c6_8
get c6_8
reconnect c6_9
serve a c6_9
go c6_9
serve a c6_9
get c6_9
get c6_9
reconnect c6_10
serve a c6_10
go c6_10
serve a c6_10
get c6_10
get c6_10
reconnect c6_11
serve a c6_11
go c6_11
serve a c6_11
get c6_11
get c6_11
reconnect c6_12
serve a c6_12
go c6_12
serve a c6_12
get c6_12
get c6_12
reconnect c6_13
serve a c6_13
go c6_13
serve a c6_13
get c6_13
get c6_13
reconnect c6_14
serve a c6_14
go c6_14
serve a c6_14
get c6_14
get c6_14
reconnect c6_15
serve a c6_15
go c6_15
serve a c6_15
get c6_15
get c6_15
reconnect c6_16
serve a c6_16
go c6_16
serve a c6_16
get c6_16
get c6_16
reconnect c6_17
serve a c6_17
go c6_17
serve a c6_17
get c6_17
get c6_17
reconnect c6_18
serve a c6_18
go c6_18
serve a c6_18
get c6_18
get c6_18
reconnect c6_19
serve a c6_19
go c6_19
serve a c6_19
get c6_19
get c6_19
reconnect c6_20
serve a c6_20
go c6_20
serve a c6_20
get c6_20
get c6_20
reconnect c6_21
serve a c6_21
go c6_21
serve a c6_21
get c6_21
get c6_21
reconnect c6_22
serve a c6_22
go c6_22
serve a c6_22
get c6_22
get c6_22
reconnect c6_23
serve a c6_23
go c6_23
serve a c6_23
get c6_23
get c6_23
reconnect c6_24
serve a c6_24
go c6_24
serve a c6_24
get c6_24
get c6_24
reconnect c6_25
serve a c6_25
go c6_25
serve a c6_25
get c6_25
get c6_25
reconnect c6_26
serve a c6_26
go c6_26
serve a c6_26
get c6_26
get c6_26
reconnect c6_27
serve a c6_27
go c6_27
serve a c6_27
get c6_27
get c6_27
reconnect c6_28
serve a c6_28
go c6_28
serve a c6_28
get c6_28
get c6_28
reconnect c6_29
serve a c6_29
go c6_29
serve a c6_29
get c6_29
get c6_29
reconnect c6_30
serve a c6_30
go c6_30
serve a c6_30
get c6_30
get c6_30
reconnect c6_31
serve a c6_31
go c6_31
serve a c6_31
get c6_31
get c6_31
reconnect c7_0
serve a c7_0
go c7_0
serve a c7_0
get c7_0
get c7_0
reconnect c7_1
serve a c7_1
go c7_1
serve a c7_1
get c7_1
get c7_1
reconnect c7_2
serve a c7_2
go c7_2
serve a c7_2
get c7_2
get c7_2
reconnect c7_3
serve a c7_3
go c7_3
serve a c7_3
get c7_3
get c7_3
reconnect c7_4
serve a c7_4
go c7_4
serve a c7_4
get c7_4
get c7_4
reconnect c7_5
serve a c7_5
go c7_5
serve a c7_5
get c7_5
get c7_5
reconnect c7_6
serve a c7_6
go c7_6
serve a c7_6
get c7_6
get c7_6
reconnect c7_7
serve a c7_7
go c7_7
serve a c7_7
get c7_7
get c7_7
reconnect c7_8
serve a c7_8
go c7_8
serve a c7_8
get c7_8
get c7_8
reconnect c7_9
serve a c7_9
go c7_9
serve a c7_9
get c7_9
get c7_9
reconnect c7_10
serve a c7_10
go c7_10
serve a c7_10
get c7_10
get c7_10
reconnect c7_11
serve a c7_11
go c7_11
serve a c7_11
get c7_11
get c7_11
reconnect c7_12
serve a c7_12
go c7_12
serve a c7_12
get c7_12
get c7_12
reconnect c7_13
serve a c7_13
go c7_13
serve a c7_13
get c7_13
get c7_13
reconnect c7_14
serve a c7_14
go c7_14
serve a c7_14
get c7_14
get c7_14
reconnect c7_15
serve a c7_15
go c7_15
serve a c7_15
get c7_15
get c7_15
reconnect c7_16
serve a c7_16
go c7_16
serve a c7_16
get c7_16
get c7_16
reconnect c7_17
serve a c7_17
go c7_17
serve a c7_17
get c7_17
get c7_17
reconnect c7_18
serve a c7_18
go c7_18
serve a c7_18
get c7_18
get c7_18
reconnect c7_19
serve a c7_19
go c7_19
serve a c7_19
get c7_19
get c7_19
reconnect c7_20
serve a c7_20
go c7_20
serve a c7_20
get c7_20
get c7_20
reconnect c7_21
serve a c7_21
go c7_21
serve a c7_21
get c7_21
get c7_21
reconnect c7_22
serve a c7_22
go c7_22
serve a c7_22
get c7_22
get c7_22
reconnect c7_23
serve a c7_23
go c7_23
serve a c7_23
get c7_23
get c7_23
reconnect c7_24
serve a c7_24
go c7_24
serve a c7_24
get c7_24
get c7_24
reconnect c7_25
serve a c7_25
go c7_25
serve a c7_25
get c7_25
get c7_25
reconnect c7_26
serve a c7_26
go c7_26
serve a c7_26
get c7_26
get c7_26
reconnect c7_27
serve a c7_27
go c7_27
serve a c7_27
get c7_27
get c7_27
reconnect c7_28
serve a c7_28
go c7_28
serve a c7_28
get c7_28
get c7_28
reconnect c7_29
serve a c7_29
go c7_29
serve a c7_29
get c7_29
get c7_29
reconnect c7_30
serve a c7_30
go c7_30
serve a c7_30
get c7_30
get c7_30
reconnect c7_31
serve a c7_31
go c7_31
serve a c7_31
get c7_31
get c7_31
reconnect c8_0
serve a c8_0
go c8_0
serve a c8_0
get c8_0
get c8_0
reconnect c8_1
serve a c8_1
go c8_1
serve a c8_1
get c8_1
get c8_1
reconnect c8_2
serve a c8_2
go c8_2
serve a c8_2
get c8_2
get c8_2
reconnect c8_3
serve a c8_3
go c8_3
serve a c8_3
get c8_3
get c8_3
reconnect c8_4
serve a c8_4
go c8_4
serve a c8_4
get c8_4
get c8_4
reconnect c8_5
serve a c8_5
go c8_5
serve a c8_5
get c8_5
get c8_5
reconnect c8_6
serve a c8_6
go c8_6
serve a c8_6
get c8_6
get c8_6
reconnect c8_7
serve a c8_7
go c8_7
serve a c8_7
get c8_7
get c8_7
reconnect c8_8
serve a c8_8
go c8_8
serve a c8_8
get c8_8
get c8_8
reconnect c8_9
serve a c8_9
go c8_9
serve a c8_9
get c8_9
get c8_9
reconnect c8_10
serve a c8_10
go c8_10
serve a c8_10
get c8_10
get c8_10
reconnect c8_11
serve a c8_11
go c8_11
serve a c8_11
get c8_11
get c8_11
reconnect c8_12
serve a c8_12
go c8_12
serve a c8_12
get c8_12
get c8_12
reconnect c8_13
serve a c8_13
go c8_13
serve a c8_13
get c8_13
get c8_13
reconnect c8_14
serve a c8_14
go c8_14
serve a c8_14
get c8_14
get c8_14
reconnect c8_15
serve a c8_15
go c8_15
serve a c8_15
get c8_15
get c8_15
reconnect c8_16
serve a c8_16
go c8_16
serve a c8_16
get c8_16
get c8_16
reconnect c8_17
serve a c8_17
go c8_17
serve a c8_17
get c8_17
get c8_17
reconnect c8_18
serve a c8_18
go c8_18
serve a c8_18
get c8_18
get c8_18
reconnect c8_19
serve a c8_19
go c8_19
serve a c8_19
get c8_19
get c8_19
reconnect c8_20
serve a c8_20
go c8_20
serve a c8_20
get c8_20
get c8_20
reconnect c8_21
serve a c8_21
go c8_21
serve a c8_21
get c8_21
get c8_21
reconnect c8_22
serve a c8_22
go c8_22
serve a c8_22
get c8_22
get c8_22
reconnect c8_23
serve a c8_23
go c8_23
serve a c8_23
get c8_23
get c8_23
reconnect c8_24
serve a c8_24
go c8_24
serve a c8_24
get c8_24
get c8_24
reconnect c8_25
serve a c8_25
go c8_25
serve a c8_25
get c8_25
get c8_25
reconnect c8_26
serve a c8_26
go c8_26
serve a c8_26
get c8_26
get c8_26
reconnect c8_27
serve a c8_27
go c8_27
serve a c8_27
get c8_27
get c8_27
reconnect c8_28
serve a c8_28
go c8_28
serve a c8_28
get c8_28
get c8_28
reconnect c8_29
serve a c8_29
go c8_29
serve a c8_29
get c8_29
get c8_29
reconnect c8_30
serve a c8_30
go c8_30
serve a c8_30
get c8_30
get c8_30
reconnect c8_31
serve a c8_31
go c8_31
serve a c8_31
get c8_31
get c8_31
reconnect c9_0
serve a c9_0
go c9_0
serve a c9_0
get c9_0
get c9_0
reconnect c9_1
serve a c9_1
go c9_1
serve a c9_1
get c9_1
get c9_1
reconnect c9_2
serve a c9_2
go c9_2
serve a c9_2
get c9_2
get c9_2
reconnect c9_3
serve a c9_3
go c9_3
serve a c9_3
get c9_3
get c9_3
reconnect c9_4
serve a c9_4
go c9_4
serve a c9_4
get c9_4
get c9_4
reconnect c9_5
serve a c9_5
go c9_5
serve a c9_5
get c9_5
get c9_5
reconnect c9_6
serve a c9_6
go c9_6
serve a c9_6
get c9_6
get c9_6
reconnect c9_7
serve a c9_7
go c9_7
serve a c9_7
get c9_7
get c9_7
reconnect c9_8
serve a c9_8
go c9_8
serve a c9_8
get c9_8
get c9_8
reconnect c9_9
serve a c9_9
go c9_9
serve a c9_9
get c9_9
get c9_9
reconnect c9_10
serve a c9_10
go c9_10
serve a c9_10
get c9_10
get c9_10
reconnect c9_11
serve a c9_11
go c9_11
serve a c9_11
get c9_11
get c9_11
reconnect c9_12
serve a c9_12
go c9_12
serve a c9_12
get c9_12
get c9_12
reconnect c9_13
serve a c9_13
go c9_13
serve a c9_13
get c9_13
get c9_13
reconnect c9_14
serve a c9_14
go c9_14
serve a c9_14
get c9_14
get c9_14
reconnect c9_15
serve a c9_15
go c9_15
serve a c9_15
get c9_15
get c9_15
reconnect c9_16
serve a c9_16
go c9_16
serve a c9_16
get c9_16
get c9_16
reconnect c9_17
serve a c9_17
go c9_17
serve a c9_17
get c9_17
get c9_17
reconnect c9_18
serve a c9_18
go c9_18
serve a c9_18
get c9_18
get c9_18
reconnect c9_19
serve a c9_19
go c9_19
serve a c9_19
get c9_19
get c9_19
reconnect c9_20
serve a c9_20
go c9_20
serve a c9_20
get c9_20
get c9_20
reconnect c9_21
serve a c9_21
go c9_21
serve a c9_21
get c9_21
get c9_21
reconnect c9_22
serve a c9_22
go c9_22
serve a c9_22
get c9_22
get c9_22
reconnect c9_23
serve a c9_23
go c9_23
serve a c9_23
get c9_23
get c9_23
reconnect c9_24
serve a c9_24
go c9_24
serve a c9_24
get c9_24
get c9_24
reconnect c9_25
serve a c9_25
go c9_25
serve a c9_25
get c9_25
get c9_25
reconnect c9_26
serve a c9_26
go c9_26
serve a c9_26
get c9_26
get c9_26
reconnect c9_27
serve a c9_27
go c9_27
serve a c9_27
get c9_27
get c9_27
reconnect c9_28
serve a c9_28
go c9_28
serve a c9_28
get c9_28
get c9_28
reconnect c9_29
serve a c9_29
go c9_29
serve a c9_29
get c9_29
get c9_29
reconnect c9_30
serve a c9_30
go c9_30
serve a c9_30
get c9_30
get c9_30
reconnect c9_31
serve a c9_31
go c9_31
serve a c9_31
get c9_31
get c9_31
reconnect c10_0
serve a c10_0
go c10_0
serve a c10_0
get c10_0
get c10_0
reconnect c10_1
serve a c10_1
go c10_1
serve a c10_1
get c10_1
get c10_1
reconnect c10_2
serve a c10_2
go c10_2
serve a c10_2
get c10_2
get c10_2
reconnect c10_3
serve a c10_3
go c10_3
serve a c10_3
get c10_3
get c10_3
reconnect c10_4
serve a c10_4
go c10_4
serve a c10_4
get c10_4
get c10_4
reconnect c10_5
serve a c10_5
go c10_5
serve a c10_5
get c10_5
get c10_5
reconnect c10_6
serve a c10_6
go c10_6
serve a c10_6
get c10_6
get c10_6
reconnect c10_7
serve a c10_7
go c10_7
serve a c10_7
get c10_7
get c10_7
reconnect c10_8
serve a c10_8
go c10_8
serve a c10_8
get c10_8
get c10_8
reconnect c10_9
serve a c10_9
go c10_9
serve a c10_9
get c10_9
get c10_9
reconnect c10_10
serve a c10_10
go c10_10
serve a c10_10
get c10_10
get c10_10
reconnect c10_11
serve a c10_11
go c10_11
serve a c10_11
get c10_11
get c10_11
reconnect c10_12
serve a c10_12
go c10_12
serve a c10_12
get c10_12
get c10_12
reconnect c10_13
serve a c10_13
go c10_13
serve a c10_13
get c10_13
get c10_13
reconnect c10_14
serve a c10_14
go c10_14
serve a c10_14
get c10_14
get c10_14
reconnect c10_15
serve a c10_15
go c10_15
serve a c10_15
get c10_15
get c10_15
reconnect c10_16
serve a c10_16
go c10_16
serve a c10_16
get c10_16
get c10_16
reconnect c10_17
serve a c10_17
go c10_17
serve a c10_17
get c10_17
get c10_17
reconnect c10_18
serve a c10_18
go c10_18
serve a c10_18
get c10_18
get c10_18
reconnect c10_19
serve a c10_19
go c10_19
serve a c10_19
get c10_19
get c10_19
reconnect c10_20
serve a c10_20
go c10_20
serve a c10_20
get c10_20
get c10_20
reconnect c10_21
serve a c10_21
go c10_21
serve a c10_21
get c10_21
get c10_21
reconnect c10_22
serve a c10_22
go c10_22
serve a c10_22
get c10_22
get c10_22
reconnect c10_23
serve a c10_23
go c10_23
serve a c10_23
get c10_23
get c10_23
reconnect c10_24
serve a c10_24
go c10_24
serve a c10_24
get c10_24
get c10_24
reconnect c10_25
serve a c10_25
go c10_25
serve a c10_25
get c10_25
get c10_25
reconnect c10_26
serve a c10_26
go c10_26
serve a c10_26
get c10_26
get c10_26
reconnect c10_27
serve a c10_27
go c10_27
serve a c10_27
get c10_27
get c10_27
reconnect c10_28
serve a c10_28
go c10_28
serve a c10_28
get c10_28
get c10_28
reconnect c10_29
serve a c10_29
go c10_29
serve a c10_29
get c10_29
get c10_29
reconnect c10_30
serve a c10_30
go c10_30
serve a c10_30
get c10_30
get c10_30
reconnect c10_31
serve a c10_31
go c10_31
serve a c10_31
get c10_31
get c10_31
reconnect c11_0
serve a c11_0
go c11_0
serve a c11_0
get c11_0
get c11_0
reconnect c11_1
serve a c11_1
go c11_1
serve a c11_1
get c11_1
get c11_1
reconnect c11_2
serve a c11_2
go c11_2
serve a c11_2
get c11_2
get c11_2
reconnect c11_3
serve a c11_3
go c11_3
serve a c11_3
get c11_3
get c11_3
reconnect c11_4
serve a c11_4
go c11_4
serve a c11_4
get c11_4
get c11_4
reconnect c11_5
serve a c11_5
go c11_5
serve a c11_5
get c11_5
get c11_5
reconnect c11_6
serve a c11_6
go c11_6
serve a c11_6
get c11_6
get c11_6
reconnect c11_7
serve a c11_7
go c11_7
serve a c11_7
get c11_7
get c11_7
reconnect c11_8
serve a c11_8
go c11_8
serve a c11_8
get c11_8
get c11_8
reconnect c11_9
serve a c11_9
go c11_9
serve a c11_9
get c11_9
get c11_9
reconnect c11_10
serve a c11_10
go c11_10
serve a c11_10
get c11_10
get c11_10
reconnect c11_11
serve a c11_11
go c11_11
serve a c11_11
get c11_11
get c11_11
reconnect c11_12
serve a c11_12
go c11_12
serve a c11_12
get c11_12
get c11_12
reconnect c11_13
serve a c11_13
go c11_13
serve a c11_13
get c11_13
get c11_13
reconnect c11_14
serve a c11_14
go c11_14
serve a c11_14
get c11_14
get c11_14
reconnect c11_15
serve a c11_15
go c11_15
serve a c11_15
get c11_15
get c11_15
reconnect c11_16
serve a c11_16
go c11_16
serve a c11_16
get c11_16
get c11_16
reconnect c11_17
serve a c11_17
go c11_17
serve a c11_17
get c11_17
get c11_17
reconnect c11_18
serve a c11_18
go c11_18
serve a c11_18
get c11_18
get c11_18
reconnect c11_19
serve a c11_19
go c11_19
serve a c11_19
get c11_19
get c11_19
reconnect c11_20
serve a c11_20
go c11_20
serve a c11_20
get c11_20
get c11_20
reconnect c11_21
serve a c11_21
go c11_21
serve a c11_21
get c11_21
get c11_21
reconnect c11_22
serve a c11_22
go c11_22
serve a c11_22
get c11_22
get c11_22
reconnect c11_23
serve a c11_23
go c11_23
serve a c11_23
get c11_23
get c11_23
reconnect c11_24
serve a c11_24
go c11_24
serve a c11_24
get c11_24
get c11_24
reconnect c11_25
serve a c11_25
go c11_25
serve a c11_25
get c11_25
get c11_25
reconnect c11_26
serve a c11_26
go c11_26
serve a c11_26
get c11_26
get c11_26
reconnect c11_27
serve a c11_27
go c11_27
serve a c11_27
get c11_27
get c11_27
reconnect c11_28
serve a c11_28
go c11_28
serve a c11_28
get c11_28
get c11_28
reconnect c11_29
serve a c11_29
go c11_29
serve a c11_29
get c11_29
get c11_29
reconnect c11_30
serve a c11_30
go c11_30
serve a c11_30
get c11_30
get c11_30
reconnect c11_31
serve a c11_31
go c11_31
serve a c11_31
get c11_31
get c11_31
reconnect c12_0
serve a c12_0
go c12_0
serve a c12_0
get c12_0
get c12_0
reconnect c12_1
serve a c12_1
go c12_1
serve a c12_1
get c12_1
get c12_1
reconnect c12_2
serve a c12_2
go c12_2
serve a c12_2
get c12_2
get c12_2
reconnect c12_3
serve a c12_3
go c12_3
serve a c12_3
get c12_3
get c12_3
reconnect c12_4
serve a c12_4
go c12_4
serve a c12_4
get c12_4
get c12_4
reconnect c12_5
serve a c12_5
go c12_5
serve a c12_5
get c12_5
get c12_5
reconnect c12_6
serve a c12_6
go c12_6
serve a c12_6
get c12_6
get c12_6
reconnect c12_7
serve a c12_7
go c12_7
serve a c12_7
get c12_7
get c12_7
reconnect c12_8
serve a c12_8
go c12_8
serve a c12_8
get c12_8
get c12_8
reconnect c12_9
serve a c12_9
go c12_9
serve a c12_9
get c12_9
get c12_9
reconnect c12_10
serve a c12_10
go c12_10
serve a c12_10
get c12_10
get c12_10
reconnect c12_11
serve a c12_11
go c12_11
serve a c12_11
get c12_11
get c12_11
reconnect c12_12
serve a c12_12
go c12_12
serve a c12_12
get c12_12
get c12_12
reconnect c12_13
serve a c12_13
go c12_13
serve a c12_13
get c12_13
get c12_13
reconnect c12_14
serve a c12_14
go c12_14
serve a c12_14
get c12_14
get c12_14
reconnect c12_15
serve a c12_15
go c12_15
serve a c12_15
get c12_15
get c12_15
reconnect c12_16
serve a c12_16
go c12_16
serve a c12_16
get c12_16
get c12_16
reconnect c12_17
serve a c12_17
go c12_17
serve a c12_17
get c12_17
get c12_17
reconnect c12_18
serve a c12_18
go c12_18
serve a c12_18
get c12_18
get c12_18
reconnect c12_19
serve a c12_19
go c12_19
serve a c12_19
get c12_19
get c12_19
reconnect c12_20
serve a c12_20
go c12_20
serve a c12_20
get c12_20
get c12_20
reconnect c12_21
serve a c12_21
go c12_21
serve a c12_21
get c12_21
get c12_21
reconnect c12_22
serve a c12_22
go c12_22
serve a c12_22
get c12_22
get c12_22
reconnect c12_23
serve a c12_23
go c12_23
serve a c12_23
get c12_23
get c12_23
reconnect c12_24
serve a c12_24
go c12_24
serve a c12_24
get c12_24
get c12_24
reconnect c12_25
serve a c12_25
go c12_25
serve a c12_25
get c12_25
get c12_25
reconnect c12_26
serve a c12_26
go c12_26
serve a c12_26
get c12_26
get c12_26
reconnect c12_27
serve a c12_27
go c12_27
serve a c12_27
get c12_27
get c12_27
reconnect c12_28
serve a c12_28
go c12_28
serve a c12_28
get c12_28
get c12_28
reconnect c12_29
serve a c12_29
go c12_29
serve a c12_29
get c12_29
get c12_29
reconnect c12_30
serve a c12_30
go c12_30
serve a c12_30
get c12_30
get c12_30
reconnect c12_31
serve a c12_31
go c12_31
serve a c12_31
get c12_31
get c12_31
reconnect c13_0
serve a c13_0
go c13_0
serve a c13_0
get c13_0
get c13_0
reconnect c13_1
serve a c13_1
go c13_1
serve a c13_1
get c13_1
get c13_1
reconnect c13_2
serve a c13_2
go c13_2
serve a c13_2
get c13_2
get c13_2
reconnect c13_3
serve a c13_3
go c13_3
serve a c13_3
get c13_3
get c13_3
reconnect c13_4
serve a c13_4
go c13_4
serve a c13_4
get c13_4
get c13_4
reconnect c13_5
serve a c13_5
go c13_5
serve a c13_5
get c13_5
get c13_5
reconnect c13_6
serve a c13_6
go c13_6
serve a c13_6
get c13_6
get c13_6
reconnect c13_7
serve a c13_7
go c13_7
serve a c13_7
get c13_7
get c13_7
reconnect c13_8
serve a c13_8
go c13_8
serve a c13_8
get c13_8
get c13_8
reconnect c13_9
serve a c13_9
go c13_9
serve a c13_9
get c13_9
get c13_9
reconnect c13_10
serve a c13_10
go c13_10
serve a c13_10
get c13_10
get c13_10
reconnect c13_11
serve a c13_11
go c13_11
serve a c13_11
get c13_11
get c13_11
reconnect c13_12
serve a c13_12
go c13_12
serve a c13_12
get c13_12
get c13_12
reconnect c13_13
serve a c13_13
go c13_13
serve a c13_13
get c13_13
get c13_13
reconnect c13_14
serve a c13_14
go c13_14
serve a c13_14
get c13_14
get c13_14
reconnect c13_15
serve a c13_15
go c13_15
serve a c13_15
get c13_15
get c13_15
reconnect c13_16
serve a c13_16
go c13_16
serve a c13_16
get c13_16
get c13_16
reconnect c13_17
serve a c13_17
go c13_17
serve a c13_17
get c13_17
get c13_17
reconnect c13_18
serve a c13_18
go c13_18
serve a c13_18
get c13_18
get c13_18
reconnect c13_19
serve a c13_19
go c13_19
serve a c13_19
get c13_19
get c13_19
reconnect c13_20
serve a c13_20
go c13_20
serve a c13_20
get c13_20
get c13_20
reconnect c13_21
serve a c13_21
go c13_21
serve a c13_21
get c13_21
get c13_21
reconnect c13_22
serve a c13_22
go c13_22
serve a c13_22
get c13_22
get c13_22
reconnect c13_23
serve a c13_23
go c13_23
serve a c13_23
get c13_23
get c13_23
reconnect c13_24
serve a c13_24
go c13_24
serve a c13_24
get c13_24
get c13_24
reconnect c13_25
serve a c13_25
go c13_25
serve a c13_25
get c13_25
get c13_25
reconnect c13_26
serve a c13_26
go c13_26
serve a c13_26
get c13_26
get c13_26
reconnect c13_27
serve a c13_27
go c13_27
serve a c13_27
get c13_27
get c13_27
reconnect c13_28
serve a c13_28
go c13_28
serve a c13_28
get c13_28
get c13_28
reconnect c13_29
serve a c13_29
go c13_29
serve a c13_29
get c13_29
get c13_29
reconnect c13_30
serve a c13_30
go c13_30
serve a c13_30
get c13_30
get c13_30
reconnect c13_31
serve a c13_31
go c13_31
serve a c13_31
get c13_31
get c13_31
reconnect c14_0
serve a c14_0
go c14_0
serve a c14_0
get c14_0
get c14_0
reconnect c14_1
serve a c14_1
go c14_1
serve a c14_1
get c14_1
get c14_1
reconnect c14_2
serve a c14_2
go c14_2
serve a c14_2
get c14_2
get c14_2
reconnect c14_3
serve a c14_3
go c14_3
serve a c14_3
get c14_3
get c14_3
reconnect c14_4
serve a c14_4
go c14_4
serve a c14_4
get c14_4
get c14_4
reconnect c14_5
serve a c14_5
go c14_5
serve a c14_5
get c14_5
get c14_5
reconnect c14_6
serve a c14_6
go c14_6
serve a c14_6
get c14_6
get c14_6
reconnect c14_7
serve a c14_7
go c14_7
serve a c14_7
get c14_7
get c14_7
reconnect c14_8
serve a c14_8
go c14_8
serve a c14_8
get c14_8
get c14_8
reconnect c14_9
serve a c14_9
go c14_9
serve a c14_9
get c14_9
get c14_9
reconnect c14_10
serve a c14_10
go c14_10
serve a c14_10
get c14_10
get c14_10
reconnect c14_11
serve a c14_11
go c14_11
serve a c14_11
get c14_11
get c14_11
reconnect c14_12
serve a c14_12
go c14_12
serve a c14_12
get c14_12
get c14_12
reconnect c14_13
serve a c14_13
go c14_13
serve a c14_13
get c14_13
get c14_13
reconnect c14_14
serve a c14_14
go c14_14
serve a c14_14
get c14_14
get c14_14
reconnect c14_15
serve a c14_15
go c14_15
serve a c14_15
get c14_15
get c14_15
reconnect c14_16
serve a c14_16
go c14_16
serve a c14_16
get c14_16
get c14_16
reconnect c14_17
serve a c14_17
go c14_17
serve a c14_17
get c14_17
get c14_17
reconnect c14_18
serve a c14_18
go c14_18
serve a c14_18
get c14_18
get c14_18
reconnect c14_19
serve a c14_19
go c14_19
serve a c14_19
get c14_19
get c14_19
reconnect c14_20
serve a c14_20
go c14_20
serve a c14_20
get c14_20
get c14_20
reconnect c14_21
serve a c14_21
go c14_21
serve a c14_21
get c14_21
get c14_21
reconnect c14_22
serve a c14_22
go c14_22
serve a c14_22
get c14_22
get c14_22
reconnect c14_23
serve a c14_23
go c14_23
serve a c14_23
get c14_23
get c14_23
reconnect c14_24
serve a c14_24
go c14_24
serve a c14_24
get c14_24
get c14_24
reconnect c14_25
serve a c14_25
go c14_25
serve a c14_25
get c14_25
get c14_25
reconnect c14_26
serve a c14_26
go c14_26
serve a c14_26
get c14_26
get c14_26
reconnect c14_27
serve a c14_27
go c14_27
serve a c14_27
get c14_27
get c14_27
reconnect c14_28
serve a c14_28
go c14_28
serve a c14_28
get c14_28
get c14_28
reconnect c14_29
serve a c14_29
go c14_29
serve a c14_29
get c14_29
get c14_29
reconnect c14_30
serve a c14_30
go c14_30
serve a c14_30
get c14_30
get c14_30
reconnect c14_31
serve a c14_31
go c14_31
serve a c14_31
get c14_31
get c14_31
reconnect c15_0
serve a c15_0
go c15_0
serve a c15_0
get c15_0
get c15_0
reconnect c15_1
serve a c15_1
go c15_1
serve a c15_1
get c15_1
get c15_1
reconnect c15_2
serve a c15_2
go c15_2
serve a c15_2
get c15_2
get c15_2
reconnect c15_3
serve a c15_3
go c15_3
serve a c15_3
get c15_3
get c15_3
reconnect c15_4
serve a c15_4
go c15_4
serve a c15_4
get c15_4
get c15_4
reconnect c15_5
serve a c15_5
go c15_5
serve a c15_5
get c15_5
get c15_5
reconnect c15_6
serve a c15_6
go c15_6
serve a c15_6
get c15_6
get c15_6
reconnect c15_7
serve a c15_7
go c15_7
serve a c15_7
get c15_7
get c15_7
reconnect c15_8
serve a c15_8
go c15_8
serve a c15_8
get c15_8
get c15_8
reconnect c15_9
serve a c15_9
go c15_9
serve a c15_9
get c15_9
get c15_9
reconnect c15_10
serve a c15_10
go c15_10
serve a c15_10
get c15_10
get c15_10
reconnect c15_11
serve a c15_11
go c15_11
serve a c15_11
get c15_11
get c15_11
reconnect c15_12
serve a c15_12
go c15_12
serve a c15_12
get c15_12
get c15_12
reconnect c15_13
serve a c15_13
go c15_13
serve a c15_13
get c15_13
get c15_13
reconnect c15_14
serve a c15_14
go c15_14
serve a c15_14
get c15_14
get c15_14
reconnect c15_15
serve a c15_15
go c15_15
serve a c15_15
get c15_15
get c15_15
reconnect c15_16
serve a c15_16
go c15_16
serve a c15_16
get c15_16
get c15_16
reconnect c15_17
serve a c15_17
go c15_17
serve a c15_17
get c15_17
get c15_17
reconnect c15_18
serve a c15_18
go c15_18
serve a c15_18
get c15_18
get c15_18
reconnect c15_19
serve a c15_19
go c15_19
serve a c15_19
get c15_19
get c15_19
reconnect c15_20
serve a c15_20
go c15_20
serve a c15_20
get c15_20
get c15_20
reconnect c15_21
serve a c15_21
go c15_21
serve a c15_21
get c15_21
get c15_21
reconnect c15_22
serve a c15_22
go c15_22
serve a c15_22
get c15_22
get c15_22
reconnect c15_23
serve a c15_23
go c15_23
serve a c15_23
get c15_23
get c15_23
reconnect c15_24
serve a c15_24
go c15_24
serve a c15_24
get c15_24
get c15_24
reconnect c15_25
serve a c15_25
go c15_25
serve a c15_25
get c15_25
get c15_25
reconnect c15_26
serve a c15_26
go c15_26
serve a c15_26
get c15_26
get c15_26
reconnect c15_27
serve a c15_27
go c15_27
serve a c15_27
get c15_27
get c15_27
reconnect c15_28
serve a c15_28
go c15_28
serve a c15_28
get c15_28
get c15_28
reconnect c15_29
serve a c15_29
go c15_29
serve a c15_29
get c15_29
get c15_29
reconnect c15_30
serve a c15_30
go c15_30
serve a c15_30
get c15_30
get c15_30
reconnect c15_31
serve a c15_31
go c15_31
serve a c15_31
get c15_31
get c15_31
go c15_0
serve a c15_0
go c15_1
serve a c15_1
go c15_2
serve a c15_2
go c15_3
serve a c15_3
go c15_4
serve a c15_4
go c15_5
serve a c15_5
go c15_6
serve a c15_6
go c15_7
serve a c15_7
go c15_8
serve a c15_8
go c15_9
serve a c15_9
go c15_10
serve a c15_10
go c15_11
serve a c15_11
go c15_12
serve a c15_12
go c15_13
serve a c15_13
go c15_14
serve a c15_14
go c15_15
serve a c15_15
go c15_16
serve a c15_16
go c15_17
serve a c15_17
go c15_18
serve a c15_18
go c15_19
serve a c15_19
go c15_20
serve a c15_20
go c15_21
serve a c15_21
go c15_22
serve a c15_22
go c15_23
serve a c15_23
go c15_24
serve a c15_24
go c15_25
serve a c15_25
go c15_26
serve a c15_26
go c15_27
serve a c15_27
go c15_28
serve a c15_28
go c15_29
serve a c15_29
go c15_30
serve a c15_30
go c15_31
serve a c15_31
go c15_31
serve a c15_31
get c15_31
go c15_31
serve a c15_31
get c15_31
offer t15 a s0
get c15_0
go c15_0
serve a c15_0
offer t15 a s1
get c15_1
go c15_1
serve a c15_1
offer t15 a s2
get c15_2
go c15_2
serve a c15_2
offer t15 a s3
get c15_3
go c15_3
serve a c15_3
offer t15 a s4
get c15_4
go c15_4
serve a c15_4
offer t15 a s5
get c15_5
go c15_5
serve a c15_5
offer t15 a s6
get c15_6
go c15_6
serve a c15_6
offer t15 a s7
get c15_7
go c15_7
serve a c15_7
offer t15 a s8
get c15_8
go c15_8
serve a c15_8
offer t15 a s9
get c15_9
go c15_9
serve a c15_9
offer t15 a s10
get c15_10
go c15_10
serve a c15_10
offer t15 a s11
get c15_11
go c15_11
serve a c15_11
offer t15 a s12
get c15_12
go c15_12
serve a c15_12
offer t15 a s13
get c15_13
go c15_13
serve a c15_13
offer t15 a s14
get c15_14
go c15_14
serve a c15_14
offer t15 a s15
get c15_15
go c15_15
serve a c15_15
offer t15 a s16
get c15_16
go c15_16
serve a c15_16
offer t15 a s17
get c15_17
go c15_17
serve a c15_17
offer t15 a s18
get c15_18
go c15_18
serve a c15_18
offer t15 a s19
get c15_19
go c15_19
serve a c15_19
offer t15 a s20
get c15_20
go c15_20
serve a c15_20
offer t15 a s21
get c15_21
go c15_21
serve a c15_21
offer t15 a s22
get c15_22
go c15_22
serve a c15_22
offer t15 a s23
get c15_23
go c15_23
serve a c15_23
offer t15 a s24
get c15_24
go c15_24
serve a c15_24
offer t15 a s25
get c15_25
go c15_25
serve a c15_25
offer t15 a s26
get c15_26
go c15_26
serve a c15_26
offer t15 a s27
get c15_27
go c15_27
serve a c15_27
offer t15 a s28
get c15_28
go c15_28
serve a c15_28
offer t15 a s29
get c15_29
go c15_29
serve a c15_29
offer t15 a s30
get c15_30
go c15_30
serve a c15_30
offer t15 a s31
get c15_31
go c15_31
serve a c15_31
go c15_31
serve a c15_31
get c15_31
offer t15 a s0
get c15_0
go c15_0
serve a c15_0
offer t15 a s1
get c15_1
go c15_1
serve a c15_1
offer t15 a s2
get c15_2
go c15_2
serve a c15_2
offer t15 a s3
get c15_3
go c15_3
serve a c15_3
offer t15 a s4
get c15_4
go c15_4
serve a c15_4
offer t15 a s5
get c15_5
go c15_5
serve a c15_5
offer t15 a s6
get c15_6
go c15_6
serve a c15_6
offer t15 a s7
get c15_7
go c15_7
serve a c15_7
offer t15 a s8
get c15_8
go c15_8
serve a c15_8
offer t15 a s9
get c15_9
go c15_9
serve a c15_9
offer t15 a s10
get c15_10
go c15_10
serve a c15_10
offer t15 a s11
get c15_11
go c15_11
serve a c15_11
offer t15 a s12
get c15_12
go c15_12
serve a c15_12
offer t15 a s13
get c15_13
go c15_13
serve a c15_13
offer t15 a s14
get c15_14
go c15_14
serve a c15_14
offer t15 a s15
get c15_15
go c15_15
serve a c15_15
offer t15 a s16
get c15_16
go c15_16
serve a c15_16
offer t15 a s17
get c15_17
go c15_17
serve a c15_17
offer t15 a s18
get c15_18
go c15_18
serve a c15_18
offer t15 a s19
get c15_19
go c15_19
serve a c15_19
offer t15 a s20
get c15_20
go c15_20
serve a c15_20
offer t15 a s21
get c15_21
go c15_21
serve a c15_21
offer t15 a s22
get c15_22
go c15_22
serve a c15_22
offer t15 a s23
get c15_23
go c15_23
serve a c15_23
offer t15 a s24
get c15_24
go c15_24
serve a c15_24
offer t15 a s25
get c15_25
go c15_25
serve a c15_25
offer t15 a s26
get c15_26
go c15_26
serve a c15_26
offer t15 a s27
get c15_27
go c15_27
serve a c15_27
offer t15 a s28
get c15_28
go c15_28
serve a c15_28
offer t15 a s29
get c15_29
go c15_29
serve a c15_29
offer t15 a s30
get c15_30
go c15_30
serve a c15_30
offer t15 a s31
get c15_31
go c15_31
serve a c15_31
go c15_31
serve a c15_31
get c15_31
offer t15 a s0
get c15_0
go c15_0
serve a c15_0
offer t15 a s1
get c15_1
go c15_1
serve a c15_1
offer t15 a s2
get c15_2
go c15_2
serve a c15_2
offer t15 a s3
get c15_3
go c15_3
serve a c15_3
offer t15 a s4
get c15_4
go c15_4
serve a c15_4
offer t15 a s5
get c15_5
go c15_5
serve a c15_5
offer t15 a s6
get c15_6
go c15_6
serve a c15_6
offer t15 a s7
get c15_7
go c15_7
serve a c15_7
offer t15 a s8
get c15_8
go c15_8
serve a c15_8
offer t15 a s9
get c15_9
go c15_9
serve a c15_9
offer t15 a s10
get c15_10
go c15_10
serve a c15_10
offer t15 a s11
get c15_11
go c15_11
serve a c15_11
offer t15 a s12
get c15_12
go c15_12
serve a c15_12
offer t15 a s13
get c15_13
go c15_13
serve a c15_13
offer t15 a s14
get c15_14
go c15_14
serve a c15_14
offer t15 a s15
get c15_15
go c15_15
serve a c15_15
offer t15 a s16
get c15_16
go c15_16
serve a c15_16
offer t15 a s17
get c15_17
go c15_17
serve a c15_17
offer t15 a s18
get c15_18
go c15_18
serve a c15_18
offer t15 a s19
get c15_19
go c15_19
serve a c15_19
offer t15 a s20
get c15_20
go c15_20
serve a c15_20
offer t15 a s21
get c15_21
go c15_21
serve a c15_21
offer t15 a s22
get c15_22
go c15_22
serve a c15_22
offer t15 a s23
get c15_23
go c15_23
serve a c15_23
offer t15 a s24
get c15_24
go c15_24
serve a c15_24
offer t15 a s25
get c15_25
go c15_25
serve a c15_25
offer t15 a s26
get c15_26
go c15_26
serve a c15_26
offer t15 a s27
get c15_27
go c15_27
serve a c15_27
offer t15 a s28
get c15_28
go c15_28
serve a c15_28
offer t15 a s29
get c15_29
go c15_29
serve a c15_29
offer t15 a s30
get c15_30
go c15_30
serve a c15_30
offer t15 a s31
get c15_31
go c15_31
serve a c15_31
go c15_31
serve a c15_31
get c15_31
offer t15 a s0
get c15_0
go c15_0
serve a c15_0
offer t15 a s1
get c15_1
go c15_1
serve a c15_1
offer t15 a s2
get c15_2
go c15_2
serve a c15_2
offer t15 a s3
get c15_3
go c15_3
serve a c15_3
offer t15 a s4
get c15_4
go c15_4
serve a c15_4
offer t15 a s5
get c15_5
go c15_5
serve a c15_5
offer t15 a s6
get c15_6
go c15_6
serve a c15_6
offer t15 a s7
get c15_7
go c15_7
serve a c15_7
offer t15 a s8
get c15_8
go c15_8
serve a c15_8
offer t15 a s9
get c15_9
go c15_9
serve a c15_9
offer t15 a s10
get c15_10
go c15_10
serve a c15_10
offer t15 a s11
get c15_11
go c15_11
serve a c15_11
offer t15 a s12
get c15_12
go c15_12
serve a c15_12
offer t15 a s13
get c15_13
go c15_13
serve a c15_13
offer t15 a s14
get c15_14
go c15_14
serve a c15_14
offer t15 a s15
get c15_15
go c15_15
serve a c15_15
offer t15 a s16
get c15_16
go c15_16
serve a c15_16
offer t15 a s17
get c15_17
go c15_17
serve a c15_17
offer t15 a s18
get c15_18
go c15_18
serve a c15_18
offer t15 a s19
get c15_19
go c15_19
serve a c15_19
offer t15 a s20
get c15_20
go c15_20
serve a c15_20
offer t15 a s21
get c15_21
go c15_21
serve a c15_21
offer t15 a s22
get c15_22
go c15_22
serve a c15_22
offer t15 a s23
get c15_23
go c15_23
serve a c15_23
offer t15 a s24
get c15_24
go c15_24
serve a c15_24
offer t15 a s25
get c15_25
go c15_25
serve a c15_25
offer t15 a s26
get c15_26
go c15_26
serve a c15_26
offer t15 a s27
get c15_27
go c15_27
serve a c15_27
offer t15 a s28
get c15_28
go c15_28
serve a c15_28
offer t15 a s29
get c15_29
go c15_29
serve a c15_29
offer t15 a s30
get c15_30
go c15_30
serve a c15_30
offer t15 a s31
get c15_31
go c15_31
serve a c15_31
