# Draws docs/time-prime.svg and docs/time-composite.svg from docs/time-degrees.txt: make -C bench plot
set terminal svg size 720,440 font "sans-serif,13" background "#ffffff"
set xlabel "degree of f and of g"
set ylabel "microseconds of the processor a call"
set xtics 6
set xrange [4:50]
set key left top
set grid
set style data linespoints
set output "../docs/time-prime.svg"
set title "Resultant modulo the prime 4294967291"
set yrange [0:*]
plot "../docs/time-degrees.txt" index 0 using 1:2 title "Jingcobu" lw 2 pt 7, \
     "" index 0 using 1:3 title "FLINT nmod\\_poly\\_resultant" lw 2 pt 5, \
     "" index 0 using 1:4 title "PARI polresultant" lw 2 pt 9
set output "../docs/time-composite.svg"
set title "Resultant modulo 6^{12}, words with zero divisors"
set logscale y
set yrange [*:*]
plot "../docs/time-degrees.txt" index 1 using 1:2 title "Jingcobu" lw 2 pt 7, \
     "" index 1 using 1:3 title "FLINT fmpz\\_poly\\_resultant, then modulo n" lw 2 pt 5, \
     "" index 1 using 1:4 title "PARI polresultant over Z, then modulo n" lw 2 pt 9
