# Reads a rule's words and the program's answer: INSTANTS.. : STOP moves=M handed=H cursor=C rest=R, or refused N.
# Writes STOP M H C and the date of the cursor's period, or the answer as it is; then a line for each instant.

NR == 1 {
    interval = 1
    for (i = 1; i <= NF; i++) read_word($i, index($i, "="))
    next
}
NF < 6 || $(NF - 5) != ":" { print; next }
{
    for (i = NF - 3; i < NF; i++) sub(/^[a-z]*=/, "", $i)
    print $(NF - 4), $(NF - 3), $(NF - 2), $(NF - 1), date_reached($(NF - 1))
    for (i = 1; i < NF - 5; i++) printf "%s  %s  %s\n", time_of_instant($i), weekday_of_instant($i), $i
}

function read_word(word, at,    key) {
    key = substr(word, 1, at - 1)
    if (key == "freq") frequency = substr(word, at + 1)
    if (key == "start") start = substr(word, at + 1)
    if (key == "interval") interval = substr(word, at + 1)
    if (key == "wkst") week_start = substr(word, at + 1)
}

# The first day of period k: the start's period moved on by k times INTERVAL.
function date_reached(cursor,    parts, steps, day, date, months) {
    split(cursor, parts, ",")
    steps = parts[2] * interval
    day = int(start / 86400)
    if (frequency > 3) return date_of_day(int((start + steps * (frequency == 4 ? 3600 : frequency == 5 ? 60 : 1)) / 86400))
    if (frequency == 3) return date_of_day(day + steps)
    if (frequency == 2) return date_of_day(day - (day + 3 + 7 - week_start) % 7 + 7 * steps)
    date = date_of_day(day)
    months = 12 * substr(date, 1, 4) + substr(date, 6, 2) - 1 + steps * (frequency == 0 ? 12 : 1)
    return sprintf("%04d-%02d-01", int(months / 12), frequency == 0 ? 1 : months % 12 + 1)
}
