# gnuplot -c chart.gp TABLE.md CHART.svg draws the ratios of the first table and the growth with the fillings.
rows = "< grep -E '^([|][^|]*){5}[|][^|]*(reached|missed|measured) [|]$' '".ARG1."'"
growth = "< grep -E '^[|] [0-9]+ [|]([^|]+[|]){6}$' '".ARG1."'"
item(column) = word(strcol(column), 1)
# A goal that is no part of the second implementation's time, or not set, has further words, and is not drawn.
goal(column) = words(strcol(column)) > 1 ? NaN : item(column) + 0
set terminal svg size 940,1060 font "sans-serif,12" background "white"
set output ARG2
set datafile separator "|"
set multiplot layout 2,1
set key below reverse Left samplen 2
set border 0
set tics scale 0
set grid xtics linetype 1 linecolor rgb "#dddddd"
set style fill solid

set title "Time of the library, as a part of the second implementation's (nanoseconds of both)"
set lmargin 48
set rmargin 22
set xrange [0:1<*]
set yrange [-0.6:*] reverse
plot rows using 5:0:(0):5:($0-0.3):($0+0.3):ytic(2) with boxxyerror linecolor rgb "#1b6f8a" title "ratio", \
     rows using (goal(6)):($0-0.4):(0):(0.8) with vectors nohead linewidth 2 linecolor rgb "#b3261e" title "goal", \
     rows using (goal(6) > $5 ? goal(6) : $5):0:(item(5)." (".item(3)." to ".item(4).")") with labels left offset 1,0 notitle

set title "Completions that find none: nanoseconds by the count of fillings"
set lmargin 10
set rmargin 4
set xrange [*:*]
set yrange [*:*] noreverse
set ytics auto
set grid ytics
set logscale xy
plot growth using 2:3 with linespoints linewidth 2 pointtype 7 pointsize 0.6 linecolor rgb "#1b6f8a" title "library", \
     growth using 2:4 with linespoints linewidth 2 pointtype 7 pointsize 0.6 linecolor rgb "#d08a2e" title "second implementation", \
     growth using 2:6 with linespoints linewidth 2 dashtype 2 pointtype 7 pointsize 0.6 linecolor rgb "#1b6f8a" title "library, not caught by the test", \
     growth using 2:7 with linespoints linewidth 2 dashtype 2 pointtype 7 pointsize 0.6 linecolor rgb "#d08a2e" title "second implementation, not caught by the test"
