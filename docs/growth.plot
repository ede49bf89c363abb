# Draws what 'bench/run growth' prints: gnuplot -e "data='growth.txt'; picture='docs/growth.png'" docs/growth.plot
set terminal pngcairo size 1000,440 font "sans,10"
set output picture
set multiplot layout 1,2
set logscale xy
set key left top
set grid
set xlabel "bases"
set ylabel "microseconds an attempt"
set format x "10^{%L}"
plot data index 0 using 1:3 with linespoints lw 2 title "rotate, fuun", \
     data index 0 using 1:2 with linespoints lw 2 title "front, fuun", \
     data index 0 using 1:5 with linespoints dt 2 title "rotate, flat string", \
     data index 0 using 1:4 with linespoints dt 2 title "front, flat string"
set xlabel "attempts"
set ylabel "seconds of the run, a million bases"
plot data index 1 using 1:3 with linespoints lw 2 title "rotate", \
     data index 1 using 1:2 with linespoints lw 2 title "front"
