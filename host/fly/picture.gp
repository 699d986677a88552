# Draws one flight or two, for gnuplot 5.2 or later. `picture.rs` says before it what `stem` (of the files), `terminal` (svg or png), `title`,
# `rows` with their files and captions, the thresholds, the range of margins and the rest are. In each row the whole flight at the left, a
# tenth of a second tick by tick at the right.

planner = 0x2a9d8f
fallback = 0xe76f51
both = 0x7b2d3b
ink = 0x264653
grey = 0x6b7780
band = 0xfbf3dc
flew(who) = who == 0 ? planner : who == 1 ? fallback : both

# places are those of a picture with two rows; with one it ends where the second would begin
tall = rows == 2 ? 760 : 441
up(part) = part - (1 - part) * (760.0 / tall - 1)

if (terminal eq "svg") {
    dot = 0.35
    set terminal svg size 1200,tall font "Helvetica,Arial,sans-serif,15" background "#ffffff" dynamic noenhanced
} else {
    dot = 0.6
    set terminal pngcairo size 1800,tall * 3 / 2 font "Sans,10" fontscale 1.6 linewidth 1.5 background "#ffffff" noenhanced
}
set output stem.".".terminal

# a size of letters as the terminal counts it; and one at which a text takes no more room than `most` letters do
letters(px) = sprintf(",%g", terminal eq "svg" ? px : px / 1.5)
within(most, text, px) = letters(strlen(text) > most ? px * most / strlen(text) : px)

height = most - least
bottom = least - 0.23 * height
top = most + 0.06 * height
strip = bottom + 0.13 * height

set multiplot
set border 3 linecolor rgb grey
set tics nomirror scale 0.5 textcolor rgb grey
set grid noxtics noytics
unset key
set style fill solid 1.0 noborder
set yrange [bottom:top]
small = letters(13)
set ytics font small

# the head: what it is, and what the colours mean
set label 1 title at screen 0.055,up(0.962) font within(100.0, title, 20) textcolor rgb ink
array colours[4] = [planner, fallback, both, band]
array meanings[4] = ["the planner flies", "the fallback flies", sprintf("both, within %d ticks", bit), "between the thresholds"]
array shown[4] = [1, 1, bit > 1, thresholds]
array widths[4] = [0.145, 0.147, 0.178, 0]
place = 0.055
do for [k = 1:4] {
    if (shown[k]) {
        set object k rect from screen place,up(0.895) to screen place + 0.02,up(0.915) fillcolor rgb colours[k] fillstyle solid noborder
        set label 1 + k meanings[k] at screen place + 0.026,up(0.905) textcolor rgb ink
        place = place + widths[k]
    }
}

do for [row = 1:rows] {
    points = files[row]
    head = row == 1 ? 0.83 : 0.41
    set tmargin at screen up(head)
    set bmargin at screen up(head - 0.31)

    # the whole flight
    set lmargin at screen 0.09
    set rmargin at screen 0.655
    set xrange [from:until]
    set xtics auto
    set format x "%g"
    set format y "%g"
    set xlabel (row == rows ? axis : "") textcolor rgb grey offset 0,0.3
    set ylabel "margin" textcolor rgb grey offset 0.5,0
    set label 10 captions[row] at graph 0,1.08 font letters(15) textcolor rgb ink
    set label 11 hands[row] at graph 1,1.08 right font letters(15) textcolor rgb (row == 1 ? planner : fallback)
    if (thresholds) {
        enters = sprintf("enter %g", enter)
        exits = finite_exit ? sprintf("exit %g", exit) : ""
        set label 12 enters at graph 1.006, first enter left font within(10.0, enters, 13) textcolor rgb grey
        set label 13 exits at graph 1.006, first exit left font within(10.0, exits, 13) textcolor rgb grey
        set object 10 rect from graph 0, first enter to graph 1, first exit fillcolor rgb band fillstyle solid noborder behind
        set arrow 10 from graph 0, first enter to graph 1, first enter nohead linecolor rgb grey dashtype 2 linewidth 1 front
        set arrow 11 from graph 0, first exit to graph 1, first exit nohead linecolor rgb (finite_exit ? grey : band) dashtype 2 linewidth 1 front
    }
    # what came of it at its end: behind the strip, or above its end where there is no room behind
    if (strlen(ends[row]) > 0) {
        if (ended[row] < 0.8 * until) {
            set label 14 ends[row] at first ended[row], first 0.5 * (bottom + strip) left offset 1,0 font small textcolor rgb ink
        } else {
            set label 14 ends[row] at first ended[row], first strip right offset -0.5,0.8 font small textcolor rgb ink
        }
    }
    plot points index 1 using 1:(bottom):1:2:(bottom):(strip):(flew($3)) with boxxyerror linecolor rgb variable, \
         points index 0 using 1:2 with lines linecolor rgb ink linewidth 1

    # a tenth of a second, tick by tick; the head is drawn already
    do for [k = 1:14] { if (k != 10) { unset label k } }
    do for [k = 1:4] { unset object k }
    set lmargin at screen 0.725
    set rmargin at screen 0.975
    set xrange [0:close_ms]
    set xlabel (row == rows ? "milliseconds" : "") textcolor rgb grey offset 0,0.3
    set ylabel ""
    set format y ""
    set label 10 close_from at graph 0,1.08 font letters(15) textcolor rgb ink
    plot points index 3 using 1:(bottom):1:2:(bottom):(strip):(flew($3)) with boxxyerror linecolor rgb variable, \
         points index 2 using 1:2 with lines linecolor rgb ink linewidth 1, \
         points index 2 using 1:2:(flew($3)) with points pointtype 7 pointsize dot linecolor rgb variable
    unset label
    unset object
    unset arrow
}
unset multiplot
