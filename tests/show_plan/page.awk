# page.awk: n lines of a plan, as the program prints them: the index and so many words, of one to five digits.
BEGIN {
    split("10 100 1000 10000 65536", most)
    for (i = 0; i < n; i++) {
        printf "%d", i
        for (j = 0; j < words; j++) printf " %d", i % 100 == 99 ? 65535 * (j % 2) : (i * 7919 + j * 104729 + i * j * 31) % most[(i + j) % 5 + 1]
        printf "\n"
    }
}
