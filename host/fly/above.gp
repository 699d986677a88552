# Draws flights from above, in panels, for gnuplot 5.2 or later. `above.rs` says before it what `stem` (of the files), `terminal` (svg or png), `title`,
# `points`, how many `panels` with their captions, what the axes show, and the `step` of their marks are.

planner = 0x2a9d8f
fallback = 0xe76f51
ink = 0x264653
grey = 0x6b7780
wanted = 0xd9dee2

if (terminal eq "svg") {
    set terminal svg size 1200,490 font "Helvetica,Arial,sans-serif,15" background "#ffffff" dynamic noenhanced
} else {
    set terminal pngcairo size 1800,735 font "Sans,10" fontscale 1.6 linewidth 1.5 background "#ffffff" noenhanced
}
set output stem.".".terminal
letters(px) = sprintf(",%g", terminal eq "svg" ? px : px / 1.5)
within(most, text, px) = letters(strlen(text) > most ? px * most / strlen(text) : px)

# the same scale both ways
set size ratio -1
set xrange [east_min:east_max]
set yrange [north_min:north_max]

set multiplot
set border 3 linecolor rgb grey
small = letters(13)
set tics nomirror scale 0.5 textcolor rgb grey font small
set xtics step
set ytics step
unset key

set label 1 title at screen 0.045,0.945 font within(100.0, title, 20) textcolor rgb ink
array colours[3] = [planner, fallback, wanted]
array meanings[3] = ["the planner flies", "the fallback flies", "the way as it is wanted"]
do for [k = 1:3] {
    set object k rect from screen 0.045 + 0.147 * (k - 1),0.845 to screen 0.065 + 0.147 * (k - 1),0.875 fillcolor rgb colours[k] fillstyle solid noborder
    set label 1 + k meanings[k] at screen 0.071 + 0.147 * (k - 1),0.86 textcolor rgb ink
}

do for [k = 1:panels] {
    set lmargin at screen 0.05 + (k - 1) * 0.95 / panels
    set rmargin at screen 0.05 + k * 0.95 / panels - 0.035
    set tmargin at screen 0.73
    set bmargin at screen 0.13
    set xlabel "m east" textcolor rgb grey offset 0,0.3
    set ylabel (k == 1 ? "m north" : "") textcolor rgb grey offset 0.5,0
    set label 10 captions[k] at graph 0,1.07 font letters(15) textcolor rgb ink
    plot points index 2 * k - 2 using 1:2 with lines linecolor rgb wanted linewidth 7, \
         points index 2 * k - 1 using 1:2:($3 == 0 ? planner : fallback) with lines linecolor rgb variable linewidth 1.6
    # the head is drawn already
    do for [l = 1:4] { unset label l }
    do for [l = 1:3] { unset object l }
}
unset multiplot
