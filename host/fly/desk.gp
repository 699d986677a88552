# Draws the sticks of a flight from a desk and the values of their filters, for gnuplot 5.2 or later. `desk.rs` says before it what `stem` (of the files),
# `terminal` (svg or png), `title`, `points`, `until`, the three limits, the stretches without a number and the button's time are.

value = 0x2a9d8f
stick = 0xe76f51
ink = 0x264653
grey = 0x6b7780
band = 0xfbf3dc
out = 0xd9dee2

if (terminal eq "svg") {
    set terminal svg size 1200,760 font "Helvetica,Arial,sans-serif,15" background "#ffffff" dynamic noenhanced
} else {
    set terminal pngcairo size 1800,1140 font "Sans,10" fontscale 1.6 linewidth 1.5 background "#ffffff" noenhanced
}
set output stem.".".terminal
letters(px) = sprintf(",%g", terminal eq "svg" ? px : px / 1.5)

set multiplot
set border 3 linecolor rgb grey
small = letters(13)
set tics nomirror scale 0.5 textcolor rgb grey font small
unset key
set lmargin at screen 0.09
set rmargin at screen 0.975
set xrange [0:until]

# the head: what it is, and what the colours mean
set label 1 title at screen 0.055,0.962 font letters(18) textcolor rgb ink
array colours[4] = [stick, value, band, out]
array meanings[4] = ["the stick", "the value that is flown", "within the limit", "no number: the cable is out"]
array places[4] = [0.055, 0.18, 0.39, 0.55]
do for [k = 1:4] {
    set object k rect from screen places[k],0.905 to screen places[k] + 0.02,0.925 fillcolor rgb colours[k] fillstyle solid noborder
    set label 1 + k meanings[k] at screen places[k] + 0.026,0.915 textcolor rgb ink
}

array names[3] = ["heading, rad", "turn, rad/s", "zoom's rate"]
do for [row = 1:3] {
    high = 0.85 - 0.27 * (row - 1)
    set tmargin at screen high
    set bmargin at screen high - 0.21
    limit = limits[row]
    set yrange [-1.75 * limit:1.75 * limit]
    set ytics -limit, limit, limit
    set xlabel (row == 3 ? "seconds" : "") textcolor rgb grey offset 0,0.3
    set ylabel names[row] textcolor rgb grey offset 0.5,0
    set object 10 rect from graph 0, first -limit to graph 1, first limit fillcolor rgb band fillstyle solid noborder behind
    # what the sticks give no number at, and where the button is pressed
    do for [k = 1:|outs| / 2] {
        set object 10 + k rect from first outs[2 * k - 1], graph 0 to first outs[2 * k], graph 1 fillcolor rgb out fillstyle solid noborder behind
    }
    set arrow 1 from first button, graph 0 to first button, graph 1 nohead linecolor rgb ink dashtype 2 linewidth 1 front
    if (row == 1) { set label 20 "the centre button" at first button, graph 1 left offset 0.5,-0.8 font small textcolor rgb ink }
    plot points using 1:(column(2 * row)) with lines linecolor rgb stick linewidth 1, \
         points using 1:(column(2 * row + 1)) with lines linecolor rgb value linewidth 2
    unset label
    do for [k = 1:4] { unset object k }
}
unset multiplot
