# Shows every net of the waveform, over its whole time.
set nets [list]
set count [gtkwave::getNumFacs]
for {set i 0} {$i < $count} {incr i} { lappend nets [gtkwave::getFacName $i] }
gtkwave::addSignalsFromList $nets
gtkwave::/Time/Zoom/Zoom_Full
