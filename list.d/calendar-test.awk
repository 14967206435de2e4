# For each instant read: the instant, its time and weekday, and the instant that its time reads back as.
{
    digits = time_of_instant($1)
    gsub(/[^0-9]/, "", digits)
    print $1, time_of_instant($1), weekday_of_instant($1), instant_of_digits(digits)
}
