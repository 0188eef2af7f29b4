# The time of a call and of one pass against the words of the store. Given: rows, the file with the times; picture, the file to write.
set terminal pngcairo size 760,460 font "sans,11"
set output picture
set title "Calls on a full store, and one pass over its words"
set logscale xy
set xlabel "words of the full store (32 bits each)"
set ylabel "processor time, microseconds"
set xrange [1000:115000]
set format y "%g"
set grid
set key top left reverse Left
plot rows using 1:($8/1000):xtic(1) with linespoints lw 2 pt 7 lc rgb "#b22222" title "a commit", \
     rows using 1:($7/1000) with linespoints lw 2 pt 5 lc rgb "#1f4e9c" title "a step (of a read)", \
     rows using 1:($3/1000) with linespoints lw 2 pt 9 dt 2 lc rgb "#777777" title "one pass over the words, no vector code", \
     rows using 1:($2/1000) with linespoints lw 2 pt 11 dt 2 lc rgb "#222222" title "one pass over the words, vector code"
