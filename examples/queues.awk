# Of a log: the greatest bound, the greatest queue after any period, and the vehicles queued after a period on average.
$1 == "bound" && $4 > bound { bound = $4 }
$1 == "p" {
    periods++
    for (i = NF; $i != "q"; i--) {
        if ($i > queue) queue = $i
        vehicles += $i
    }
}
END { printf "bound %d, queue %d, mean %.1f\n", bound, queue, vehicles / periods }
