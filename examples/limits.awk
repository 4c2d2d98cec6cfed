# Of the header of a guard: the greatest bound, the median bound (of two the greater), and the longest wait.
$1 == "bound" {
    for (i = ++n; i > 1 && bound[i - 1] > $4; i--) bound[i] = bound[i - 1]
    bound[i] = $4
}
$1 == "wait" && $4 > wait { wait = $4 }
END { printf "bound %d, median %d, wait %d\n", bound[n], bound[int(n / 2) + 1], wait }
