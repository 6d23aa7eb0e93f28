# Draws performance.svg from performance.tsv: gnuplot performance.gnuplot, in this folder.
set terminal svg size 800,460 font "sans-serif,13" background "white"
set output "performance.svg"
set datafile separator "\t"
set title "The sum of a slice: Sum16BitWords::new().add_slice(..).ones_complement()" noenhanced
set xlabel "length of the slice in bytes"
set ylabel "GB/s"
set logscale x 2
set xtics (8, 20, 40, 64, 128, 256, 512, 1500, 65507)
set yrange [0:*]
set grid
set key top left
plot "performance.tsv" skip 1 using 1:2 with linespoints linewidth 2 pointtype 7 title "this library", \
     "" skip 1 using 1:3 with linespoints linewidth 2 pointtype 5 title "etherparse"
