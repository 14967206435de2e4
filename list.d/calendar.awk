# Instants and dates. An instant is a count of UTC seconds since 1970-01-01T00:00:00Z.
# A year begins in March here, so that the leap day is its last and the months before it have fixed lengths.

# Days from 1970-01-01 to a date.
function day_of_date(year, month, day,    from_march) {
    from_march = (month + 9) % 12
    if (month < 3) year--
    return 365 * year + int(year / 4) - int(year / 100) + int(year / 400) + int((153 * from_march + 2) / 5) + day - 1 - 719468
}

# YYYY-MM-DD of the day that comes so many days after 1970-01-01.
function date_of_day(day,    century, within, year, from_march, month) {
    day += 719468
    century = int((4 * day + 3) / 146097)
    within = day - int(146097 * century / 4)
    year = int((4 * within + 3) / 1461)
    within -= int(1461 * year / 4)
    from_march = int((5 * within + 2) / 153)
    day = within - int((153 * from_march + 2) / 5) + 1
    month = from_march < 10 ? from_march + 3 : from_march - 9
    return sprintf("%04d-%02d-%02d", 100 * century + year + (month < 3), month, day)
}

# YYYY-MM-DDTHH:MM:SSZ of an instant.
function time_of_instant(instant,    day, second) {
    day = int(instant / 86400)
    second = instant - 86400 * day
    return sprintf("%sT%02d:%02d:%02dZ", date_of_day(day), int(second / 3600), int(second / 60) % 60, second % 60)
}

# 1970-01-01 was a Thursday.
function weekday_of_instant(instant) {
    return substr("ThuFriSatSunMonTueWed", int(instant / 86400) % 7 * 3 + 1, 3)
}

# The instant of YYYYMMDDHHMMSS, or "" where there is no such time from 1970 on: then it doesn't read back.
function instant_of_digits(digits,    day, instant, back) {
    day = day_of_date(substr(digits, 1, 4) + 0, substr(digits, 5, 2) + 0, substr(digits, 7, 2) + 0)
    if (day < 0) return ""
    instant = 86400 * day + 3600 * substr(digits, 9, 2) + 60 * substr(digits, 11, 2) + substr(digits, 13, 2)
    back = time_of_instant(instant)
    gsub(/[^0-9]/, "", back)
    return back == digits ? sprintf("%.0f", instant) : ""
}
