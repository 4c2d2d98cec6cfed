# Of a log: at how many periods a junction shows another stage than in the period before, summed over the junctions.
$1 == "p" {
    for (i = 3; $i != "s"; i++) continue
    for (j = 1; $(i + j) != "q"; j++) {
        if (periods && $(i + j) != shown[j]) changes++
        shown[j] = $(i + j)
    }
    periods++
}
END { printf "changes %d in %d periods\n", changes, periods }
