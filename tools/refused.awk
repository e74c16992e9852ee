# Judges the runs that tools/refuse.c tells of: prints each that is neither out of memory nor its row's own answer, and a
# last line `sum ROWS RUNS OWN MEMORY FAULTS PLAIN`.
#
# form: what an answer looks like, `expr` (a value on standard output, or the word for a refusal on standard error with
# status 1), `bench` (a line on standard output) or `lines` (lines on standard output, a line on standard error for each record
# that is refused). answers: the file of the rows' own answers, one a line; the rows of `lines` have none there, and what stands
# for them is the run that has all its memory.
BEGIN {
    while ((getline answer < answers) > 0) own[++lines] = answer
}
/^stopped: / { print "fault: " $0; faults++; next }
NF != 5 { print "fault: a record of " NF " parts: " $0; faults++; next }
{
    runs++
    how = $3 "\t" $4 "\t" $5
    if ($2 > 0) { many[how]++; next }
}
{
    rows++
    judge($1, how)
    delete many
    if (rows % 100 == 0) printf "\rrefused: %s, row %d ", form, $1 > terminal
}
# what a row's run says that has all its memory
function wanted(row,    text) {
    text = own[row]
    if (text == "!usage") return "2\t\tusage\\n"
    if (form == "expr") return text ~ /^!/ ? "1\t\t" substr(text, 2) "\\n" : "0\t" text "\\n\t"
    gsub(/\\/, "&&", text)
    return "0\t" text "\\n\t"
}
# whether the lines of one text are those of another but for at most one
function misses_one(given, all,    parts, count, i, rest) {
    if (given == all) return 1
    count = split(all, parts, /\\n/) - 1
    for (i = 1; i <= count; i++) {
        rest = without(parts, count, i)
        if (given == rest) return 1
    }
    return 0
}
function without(parts, count, left_out,    i, text) {
    for (i = 1; i <= count; i++) if (i != left_out) text = text parts[i] "\\n"
    return text
}
# One growth was refused to `expr_lines`: a record is told of as refused in place of what it came to, or nothing can be
# compiled, read or written, and a count is of what was read; or all is as it was, where the text of a message alone was left
# out.
function is_lines_memory(how, whole,    given, all) {
    split(how, given, "\t")
    split(whole, all, "\t")
    if (given[2] ~ /^[0-9]+\\n$/ && all[2] ~ /^[0-9]+\\n$/) {
        if (given[1] == 4) return given[2] + 0 <= all[2] + 0
        return given[1] == 3 && (given[2] + 0 == all[2] + 0 || given[2] + 1 == all[2] + 0)
    }
    if (given[1] == 4) return given[2] == "" || misses_one(given[2], all[2])
    if (given[1] == 2) return given[2] == ""
    return given[1] == 3 && given[3] ~ /memory/ && misses_one(given[2], all[2])
}
function is_memory(how) {
    if (form == "expr") return how == "1\t\tmemory\\n" || how == "1\t\t"
    return how == "0\t!memory\\n\t" || how == "1\t\tError: Kind(OutOfMemory)\\n"
}
# the row of the calls on `1 + 2`: out of memory where it is read, and where it is run, and never where its node is evaluated
function is_plain_memory(how) {
    if (how != "0\tcompile: run: !memory eval_expr: 3\\n\t") return 0
    plain += many[how]
    return 1
}
function judge(row, whole,    how) {
    own_runs++
    if (form == "lines" ? whole !~ /^[0-3]\t/ : whole != wanted(row)) { print "fault: " form ", row " row ", with all its memory: " whole; faults++ }
    for (how in many) {
        if (how == whole) own_runs += many[how]
        else if (form == "lines" ? is_lines_memory(how, whole) : is_memory(how) || is_plain_memory(how)) memory += many[how]
        else { print "fault: " form ", row " row ": " how; faults += many[how] }
    }
}
END { print "sum", rows + 0, runs + 0, own_runs + 0, memory + 0, faults + 0, plain + 0 }
