# Prints the table, as text or, with form=markdown, as docs/SPEED.md has it.
# A line in: subject|call, the instructions of library, plain and tuned, and the nanoseconds of the same, each - where there are none.
BEGIN {
    FS = "|"
    markdown = form == "markdown"
    first = markdown ? "| %s | %s |" : "%-26s %-7s"
    cells = markdown ? " %s | %s | %s | %s | %s |" : " %10s %10s %10s %7s %7s"
}

# 1234567 as 1,234,567.
function grouped(n,    text) {
    for (; length(n) > 3; n = substr(n, 1, length(n) - 3))
        text = "," substr(n, length(n) - 2) text
    return n text
}

function ratio(a, b) {
    return sprintf(a / b < 100 ? "%.2f" : "%.0f", a / b)
}

function print_heading() {
    printf first, markdown ? "grain or picture" : "", "call"
    printf cells, "library", "plain", "tuned", "/ plain", "/ tuned"
    if (timed)
        printf cells, "library ns", "plain ns", "tuned ns", "/ plain", "/ tuned"
    print ""
    if (markdown)
        print "|---|---|---:|---:|---:|---:|---:|" (timed ? "---:|---:|---:|---:|---:|" : "")
}

NR == 1 {
    timed = $6 != "-"
    print_heading()
}

{
    printf first, $1, $2
    printf cells, grouped($3), grouped($4), grouped($5), ratio($3, $4), ratio($3, $5)
    if (timed)
        printf cells, $6, $7, $8, ratio($6, $7), ratio($6, $8)
    print ""
}
