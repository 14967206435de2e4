# Judges the user's words, and turns them into the words of docs/LINES.md, in either case of letters. Nothing is sorted.
# Writes 'bad' and a sentence; or 'taken', the whole line, the rule's words alone, and ROOM MOVES CALLS CURSOR: a line each.

BEGIN {
    name_values()
    name_ranges()
    name_unsupported()
    for (i = 1; i < ARGC; i++) read_argument(ARGV[i])
    for (i = 1; i <= words; i++) if (tolower(word[i]) ~ /^record=/) { direct = tolower(word[i]) ~ /^record=\+?0*1$/; break }
    for (i = 1; i <= words && sentence == ""; i++) take(word[i])
    if (in_start) refuse("DTSTART", bare_start)
    if (!words) say_bad("a rule without words")
    if (!("freq" in given)) say_bad("a rule without freq=")
    if (!("start" in given)) say_bad("a rule without start=")
    if (length(rule) > 65000) say_bad("a rule of more than 65,000 bytes")
    if (sentence != "") print "bad\n" sentence
    else print "taken\n" line "\n" rule "\n" run["room"], run["moves"], run["calls"], run["cursor"]
    exit
}

function name_values(    names, i) {
    split("yearly monthly weekly daily hourly minutely secondly", names, " ")
    for (i = 1; i <= 7; i++) value_of["freq", names[i]] = i - 1
    split("mo tu we th fr sa su", names, " ")
    for (i = 1; i <= 7; i++) value_of["wkst", names[i]] = i - 1
    run["room"] = 20
    run["moves"] = "4294967295"
    run["calls"] = 1
    run["cursor"] = "none"
}

# Numbers by their keys. The program takes any number of a type, and the check refuses what is outside the range that is told.
function name_ranges(    i) {
    add_number("freq", 0, 255, "a frequency is yearly, monthly, weekly, daily, hourly, minutely or secondly, or 0 to 6")
    add_number("wkst", 0, 255, "a week begins on mo, tu, we, th, fr, sa or su, or 0 to 6")
    add_number("interval", 0, 65535, "interval is a number from 1 to 65535")
    add_number("count", 0, "4294967295", "count is a number from 1 to 4294967295")
    add_number("room", 0, 4096, "room is a number from 0 to 4096")
    add_number("moves", 0, "4294967295", "moves is a number from 0 to 4294967295")
    add_number("calls", 1, 65535, "calls is a number from 1 to 65535")
    add_number("record", 0, 1, "record is 0 or 1")
    add_list("bymonth", 0, 12)
    add_list("bymonthday", -31, 31)
    add_list("byyearday", -366, 366)
    add_list("byweekno", -53, 53)
    add_list("byday", -53, 53)
    add_list("byhour", 0, 23)
    add_list("byminute", 0, 59)
    add_list("bysecond", 0, 59)
    add_list("bysetpos", -366, 366)
    has_zero["byhour"] = has_zero["byminute"] = has_zero["bysecond"] = 1
    kind["start"] = kind["until"] = "time"
    kind["cursor"] = "cursor"
}

function add_number(key, low, high, why) {
    kind[key] = "number"
    lowest[key] = low
    highest[key] = high ""
    range[key] = why
}

function add_list(key, low, high) {
    kind[key] = "list"
    lowest[key] = low
    highest[key] = high
    range[key] = key "'s are " (low < 0 ? "1 to " high " and " low " to -1" : (key ~ /month/ ? 1 : 0) " to " high)
}

function name_unsupported() {
    unsupported["tzid"] = "TZID isn't supported: times are in UTC, as DTSTART:20240228T050000Z"
    unsupported["value"] = "VALUE=DATE isn't supported: a start is an instant; start=2024-02-28 is the midnight of a date, in UTC"
    unsupported["exdate"] = "EXDATE isn't supported: one rule is listed, and no date is taken out"
    unsupported["rdate"] = "RDATE isn't supported: one rule is listed, and no date is added"
    unsupported["exrule"] = "EXRULE isn't supported: one rule is listed, and no other is taken out"
    bare_start = "a colon and a time stand behind it, as DTSTART:20240228T050000Z"
    not_utc = "isn't supported: a time is in UTC, with a Z at its end, as 2024-02-28T05:00:00Z"
    eight_digits = "eight digits are a date, and seconds since 1970 get a 0 before them"
    no_time = "a time is 2024-02-28T05:00:00Z (UTC), a date 2024-02-28, from 1970 on"
}

# An argument is one or more lines of a calendar's text. A line that begins with a blank goes on with the one before,
# but where a whole property stands behind the blank.
function read_argument(text,    lines, count, i, whole) {
    gsub(/\r\n/, "\n", text)
    gsub(/\r/, "\n", text)
    count = split(text, lines, "\n")
    for (i = 1; i <= count; i++) {
        if (i > 1 && lines[i] ~ /^[ \t]/ && tolower(lines[i]) !~ /^[ \t]+(rrule|dtstart|exdate|rdate|exrule)[:;=]/) {
            whole = whole substr(lines[i], 2)
        } else {
            read_line(whole)
            whole = lines[i]
        }
    }
    read_line(whole)
}

# Words have blanks or semicolons between them. Blanks around a mark mean nothing.
function read_line(text,    parts, count, i) {
    if (text ~ /[ \t]/) {
        gsub(/[ \t]*=[ \t]*/, "=", text)
        gsub(/[ \t]*:[ \t]*/, ":", text)
        gsub(/[ \t]*,[ \t]*/, ",", text)
    }
    count = split(text, parts, /[ \t;]+/)
    for (i = 1; i <= count; i++) {
        if (tolower(parts[i]) ~ /^rrule:/) parts[i] = substr(parts[i], 7)
        if (parts[i] != "") word[++words] = parts[i]
    }
}

# Only the first bad word is told, and of a long one the beginning.
function refuse(text, why) {
    if (length(text) > 60) text = substr(text, 1, 57) "..."
    say_bad("'" text "': " why)
}
function say_bad(text) { if (sentence == "") sentence = text }

# DTSTART may have parameters before its colon: words of their own here.
function take(text,    low, at, key) {
    low = tolower(text)
    if (low == "dtstart") { in_start = 1; return }
    if (in_start && low !~ /^(tzid|value)=/) refuse("DTSTART", bare_start)
    if (in_start) sub(/^value=date-time:/, "start=", low)
    in_start = 0
    sub(/^dtstart[:=]/, "start=", low)
    match(low, /^[a-z-]*/)
    key = substr(low, 1, RLENGTH)
    at = substr(low, RLENGTH + 1, 1)
    if (key in unsupported) refuse(text, unsupported[key])
    else if (low ~ /^--?[a-z]/) refuse(text, "options stand before the words, and ./list --help has them")
    else if (at == ":") refuse(text, "of a calendar's properties RRULE and DTSTART can be taken")
    else if (key == "" || at != "=") refuse(text, "a word is key=value")
    else if (!(key in kind)) refuse(text, "there is no key " key)
    else if (key in given) refuse(text, key " is given twice, before as '" given[key] "'")
    else {
        given[key] = text
        put(text, key, substr(low, RLENGTH + 2))
    }
}

function put(text, key, value) {
    why = ""
    if (value == "") why = "it has no value"
    else if (kind[key] == "time") value = turned_time(value)
    else if (kind[key] == "list") value = turned_list(key, value)
    else if (kind[key] == "cursor") value = turned_cursor(value)
    else value = turned_number(key, value)
    if (why != "") refuse(text, why)
    line = line (line == "" ? "" : " ") key "=" value
    if (key in run) run[key] = value
    else rule = rule (rule == "" ? "" : " ") key "=" value
}

# A number without a plus and without zeros before it, or "" where the text is none.
function plain_number(text) {
    if (text !~ /^[-+]?[0-9]+$/) return ""
    sub(/^\+/, "", text)
    if (text ~ /^-?0+$/) return "0"
    if (text ~ /^-/) sub(/^-0+/, "-", text)
    else sub(/^0+/, "", text)
    return text
}

# Digits can be more than a number of awk holds, so that they are compared as text.
function is_at_most(digits, bound) {
    return length(digits) < length(bound) || (length(digits) == length(bound) && (digits "") <= (bound ""))
}

function is_whole(number, high) { return number ~ /^[0-9]/ && is_at_most(number, high) }

# Whether a number is of a list's type; of a record's list, whether it is in its range.
function fits(number, low, high, zero) {
    if (length(number) > 6 || number + 0 < -32768 || number + 0 > 32767) return 0
    return !direct || (number + 0 >= low && number + 0 <= high && (zero || number + 0 != 0))
}

function turned_number(key, text,    number) {
    if ((key, text) in value_of) return value_of[key, text]
    number = plain_number(text)
    if (!is_whole(number, direct && key == "freq" ? "6" : highest[key]) || number + 0 < lowest[key]) why = range[key]
    return number
}

# Eight digits are a date, and any others seconds since 1970.
function turned_time(text,    two, date, digits, clock) {
    two = "[0-9][0-9]"
    date = "^(" two two "-" two "-" two "|" two two two two ")"
    clock = "t" two ":?" two "(:?" two ")?"
    digits = text
    gsub(/[^0-9]/, "", digits)
    if (text ~ (date "$") || text ~ (date clock "z$")) {
        digits = instant_of_digits(substr(digits "000000", 1, 14))
        if (digits == "") why = "there is no such time from 1970 on; " (length(text) == 8 ? eight_digits : no_time)
        return digits
    }
    if (text ~ (date clock "$")) why = "a local time " not_utc
    else if (text ~ (date clock "[-+]" two)) why = "an offset from UTC " not_utc
    else if (text !~ /^\+?[0-9]+$/) why = no_time
    else if (!is_whole(plain_number(text), "18446744073709551615")) why = "seconds since 1970 go to 253402300799, the end of 9999"
    return plain_number(text)
}

function turned_list(key, text,    entries, count, i, turned) {
    count = split(text, entries, ",")
    if (count > 1024) {
        why = "a list has at most 1,024 entries, and this one has " count
        return ""
    }
    for (i = 1; i <= count && why == ""; i++)
        turned = turned (i > 1 ? "," : "") (key == "byday" ? turned_day(entries[i]) : turned_entry(key, entries[i]))
    return turned
}

function turned_entry(key, text,    number) {
    number = plain_number(text)
    if (number == "") why = "'" text "' is no number; " range[key]
    else if (!fits(number, lowest[key], highest[key], has_zero[key])) why = text " is outside of its range; " range[key]
    return number
}

# A weekday by its letters, with a number before it or without; or the pair n:w, where n is 0 for every.
function turned_day(text,    name, number, at) {
    at = index(text, ":")
    name = substr(text, length(text) - 1)
    if (at) {
        number = plain_number(substr(text, 1, at - 1))
        name = plain_number(substr(text, at + 1))
    } else if (("wkst", name) in value_of) {
        number = length(text) == 2 ? "0" : plain_number(substr(text, 1, length(text) - 2))
        if (number == "0" && length(text) > 2) why = "a number before a weekday isn't zero: MO is every Monday, 1MO the first"
        name = value_of["wkst", name]
    }
    if (number == "" || name !~ /^-?[0-9]+$/) why = "'" text "' is no weekday; they are mo, tu, we, th, fr, sa, su, or with a number as -1fr"
    else if (!fits(number, -53, 53, 1) || !fits(name, 0, 6, 1)) why = text " is outside of its range; numbers before weekdays are 1 to 53 and -53 to -1"
    return number ":" name
}

function turned_cursor(text,    parts, i) {
    if (split(text, parts, ",") != 4 || parts[1] !~ /^(running|count|interval|until|notick|range)$/) why = "bad"
    for (i = 2; i <= 4; i++) {
        parts[i] = plain_number(parts[i])
        if (!is_whole(parts[i], i == 3 ? "4294967295" : "18446744073709551615")) why = "bad"
    }
    if (why != "") why = "a cursor is four words as an earlier listing wrote them, as running,2,1,3"
    return parts[1] "," parts[2] "," parts[3] "," parts[4]
}
