# Prints the greediest stream that a file permits: in each period, on each fed link, as many vehicles as its bucket takes.
# awk -v per=900 -v links="25,724 12,652" -v periods=1000 -f greedy.awk: the rate length, and burst and rate of each link.
BEGIN {
    n = split(links, link, " ")
    for (t = 1; t <= periods; t++) {
        line = ""
        for (l = 1; l <= n; l++) {
            split(link[l], of, ",")
            count = int((per * of[1] + of[2] - level[l]) / per)
            level[l] += per * count - of[2]
            if (level[l] < 0) level[l] = 0
            line = line (l > 1 ? "," : "") count
        }
        print line
    }
}
