"""The texts that the page of request 2026-04 names, with the answers that it gives, written by hand."""
from asking import read_line

LONGEST = 16384
EVERY_PART = (
    b"FREQ=YEARLY;INTERVAL=1;COUNT=1;UNTIL=19700101T000000Z;WKST=MO;BYMONTH=1;BYMONTHDAY=1;BYYEARDAY=1;BYWEEKNO=1;"
    b"BYDAY=MO;BYHOUR=1;BYMINUTE=1;BYSECOND=1;BYSETPOS=1"
)
ALL_BUT_FREQ = EVERY_PART.removeprefix(b"FREQ=YEARLY;")
EVERY_WORD = (
    "freq=0 interval=1 count=1 until=0 wkst=0 bymonth=1 bymonthday=1 byyearday=1 byweekno=1 byday=0:0 byhour=1 byminute=1 "
    "bysecond=1 bysetpos=1"
)
DAILY = b"FREQ=DAILY;"
DAILY_WORDS = "freq=3 interval=1 wkst=0"
MONTHLY_WORDS = "freq=1 interval=1 wkst=0"


def zeros_to(length):
    """A good text of so many bytes: INTERVAL is 1, behind zeros."""
    return b"FREQ=DAILY;INTERVAL=" + b"0" * (length - 21) + b"1"


# Section, text, and what the reader says: the words of the rule, or the place where the text is refused.
READ = [
    ("A2 letter case", b"fReQ=dAiLy;BYDAY=mo", f"{DAILY_WORDS} byday=0:0"),
    ("A2 T and Z", b"UNTIL=20240101T000000z", 21),
    ("A2 T and Z", b"UNTIL=20240101t000000Z", 14),
    ("A2 other bytes", b"FREQ=DAILY\n", 10),
    ("A2 other bytes", b"FREQ]DAILY", 4),
    ("A2 other bytes", b"FREQ\x1dDAILY", 4),
    ("A2 other bytes", b"FREQ=DAILY ", 10),
    ("A2 other bytes", b" FREQ=DAILY", 0),
    ("A2 other bytes", b"FREQ=DAILY\t", 10),
    ("A2 other bytes", b"FREQ=DAILY\r", 10),
    ("A2 other bytes", b"FREQ=DAILY\0", 10),
    ("A2 other bytes", b"FREQ=DAILY\x80", 10),
    ("A2 prefix", b"RRULE:FREQ=DAILY", 0),
    ("A2 other parts", b"X-A=1;FREQ=DAILY", 0),
    ("A2 other parts", b"FREQ=DAILY;BYEASTER=1", 13),
    ("A2 other parts", b"FREQ=DAILY;BYWEEKDAY=MO", 17),
    ("A2 other parts", b"RSCALE=GREGORIAN;FREQ=DAILY", 0),
    ("A2 other parts", b"FREQ=DAILY;SKIP=OMIT", 11),
    ("A2 FREQ", b"COUNT=3;FREQ=DAILY", "freq=3 interval=1 count=3 wkst=0"),
    ("A2 FREQ", b"COUNT=3", 7),
    ("A2 repeated part", b"FREQ=DAILY;F", 11),
    ("A2 repeated part", b"BYMONTH=1;BYMONTH=2", 17),
    ("A2 empty text", b"", 0),
    ("A2 empty parts", b"FREQ=DAILY;", 11),
    ("A2 empty parts", b"FREQ=DAILY;;", 11),
    ("A2 empty parts", b";FREQ=DAILY", 0),
    ("A2 INTERVAL", b"INTERVAL=00065535", 17),
    ("A2 INTERVAL", DAILY + b"INTERVAL=00065535", "freq=3 interval=65535 wkst=0"),
    ("A2 INTERVAL", b"INTERVAL=65536", 13),
    ("A2 INTERVAL", b"INTERVAL=+1", 9),
    ("A2 COUNT", b"COUNT=4294967296", 15),
    ("A2 COUNT", DAILY + b"COUNT=4294967295", "freq=3 interval=1 count=4294967295 wkst=0"),
    ("A2 0", b"FREQ=DAILY;INTERVAL=0", "freq=3 interval=0 wkst=0"),
    ("A2 0", b"FREQ=DAILY;COUNT=0", "freq=3 interval=1 count=0 wkst=0"),
    ("A2 COUNT with UNTIL", b"FREQ=DAILY;COUNT=1;UNTIL=19700101T000000Z", "freq=3 interval=1 count=1 until=0 wkst=0"),
    ("A2 list numbers", DAILY + b"BYHOUR=008", f"{DAILY_WORDS} byhour=8"),
    ("A2 list numbers", DAILY + b"BYHOUR=999", f"{DAILY_WORDS} byhour=999"),
    ("A2 list numbers", b"BYHOUR=0008", 10),
    ("A2 signs", b"FREQ=MONTHLY;BYMONTHDAY=+1,-1", f"{MONTHLY_WORDS} bymonthday=1,-1"),
    ("A2 signs", b"BYMONTH=-1", 8),
    ("A2 signs", b"FREQ=MONTHLY;BYMONTHDAY=-0", f"{MONTHLY_WORDS} bymonthday=0"),
    ("A2 BYDAY", b"FREQ=MONTHLY;BYDAY=0MO", 20),
    ("A2 BYDAY", b"FREQ=MONTHLY;BYDAY=000MO", 21),
    ("A2 BYDAY", b"FREQ=MONTHLY;BYDAY=+MO", 20),
    ("A2 BYDAY", b"FREQ=MONTHLY;BYDAY=001MO", f"{MONTHLY_WORDS} byday=1:0"),
    ("A2 order", DAILY + b"BYHOUR=9,8", f"{DAILY_WORDS} byhour=9,8"),
    ("A2 749", DAILY + b"BYHOUR=" + b",".join([b"1"] * 750), 1515),
    ("A2 749", DAILY + b"BYHOUR=" + b",".join([b"1"] * 749), f"{DAILY_WORDS} byhour=" + ",".join(["1"] * 749)),
    ("A2 UNTIL", b"UNTIL=20240101", 14),
    ("A2 UNTIL", b"UNTIL=20240101;", 14),
    ("A2 UNTIL", b"UNTIL=20240101T235960Z", 19),
    ("A2 absent", b"FREQ=DAILY", DAILY_WORDS),
    ("A3.1", b"x" * 16385, 16384),
    ("A3.1", b"x" * 16384, 0),
    ("A3.1", zeros_to(LONGEST + 1), 16384),
    ("A3.2", zeros_to(LONGEST - 1) + b";", 16384),
    ("A3.5", b"FREQ=DAILY;BYDAY=0MO", 18),
    ("A3.5", b"FREQ=DAILY;BYDAY=000MO", 19),
    ("A3.5", b"UNTIL=196", 8),
    ("A3.5", b"UNTIL=0", 6),
    ("A3.5", b"UNTIL=2023023", 12),
    ("A3.5", b"UNTIL=20230229", 13),
    ("A3.5", b"UNTIL=21000229", 13),
    ("A3.5", b"BYMONTH=1;BYMONTHDAY=1;BYMONTH", 26),
    ("A3.5", b"FREQ=M", 6),
    ("A3.5", b"FREQ=MX", 6),
    ("A3.5", EVERY_PART, EVERY_WORD),
    ("A3.5", EVERY_PART + b";", len(EVERY_PART)),
    ("A3.5", ALL_BUT_FREQ + b";C", len(ALL_BUT_FREQ) + 1),
    ("A3.5", b"FREQ=DAILY;COUNT=18446744073709551617", 27),
    ("A3.5", b"FREQ=DAILY;BYHOUR=", 18),
    ("A3.5", b"FREQ=DAILY;BYHOUR=;", 18),
    ("A4.7", b"byday=1mo;freq=monthly;interval=001;wkst=mo", f"{MONTHLY_WORDS} byday=1:0"),
    ("B7", b"FREQ=DAIL;", 9),
    ("B7", b"UNTIL=1969", 8),
    ("B7", b"COUNT=18446744073709551617", 16),
    ("B7", b"FREQ=DAILY;INTERVAL=000001", DAILY_WORDS),
    ("B7", b"BYHOUR=1", 8),
    ("B7", b"FREQ=MONTHLY;BYDAY=1", 20),
    ("B7", zeros_to(LONGEST), DAILY_WORDS),
    ("B7", b"FREQ=DAILY;BYHOUR=8,8", f"{DAILY_WORDS} byhour=8,8"),
    ("B7", b"FREQ=DAILY;BYMONTH=13", f"{DAILY_WORDS} bymonth=13"),
    ("D3", b"FREQ=DAIL", 9),
]

# Section, text, and the number that the check then gives.
CHECKED = [
    ("A2 0", b"FREQ=DAILY;INTERVAL=0", 10),
    ("A2 0", b"FREQ=DAILY;COUNT=0", 10),
    ("A2 COUNT with UNTIL", b"FREQ=DAILY;COUNT=1;UNTIL=19700101T000000Z", 11),
    ("A2 list numbers", DAILY + b"BYHOUR=999", 5),
    ("A2 signs", b"FREQ=MONTHLY;BYMONTHDAY=+1,-1", 6),
    ("A2 signs", b"FREQ=MONTHLY;BYMONTHDAY=-0", 5),
    ("A2 order", DAILY + b"BYHOUR=9,8", 6),
    ("B7", b"FREQ=DAILY;BYHOUR=8,8", 6),
    ("B7", b"FREQ=DAILY;BYMONTH=13", 5),
]

LONG_EXAMPLE = b"FREQ=YEARLY;INTERVAL=2;BYMONTH=1;BYDAY=SU;BYHOUR=8,9;BYMINUTE=30"
MONTHLY_FIRST = b"FREQ=MONTHLY;BYDAY=1MO"

# Section, words with the room, and what the writer says: the text, `short` with the length, or `refused` with the number.
WRITTEN = [
    ("A4.2", "freq=7 room=100", "refused 1"),
    ("A4.2", "freq=255 wkst=255 interval=0 room=0", "refused 1"),
    ("A4.2", "freq=6 wkst=7 room=100", "refused 2"),
    ("A4.2", "freq=3 until=253402300800 room=100", "refused 4"),
    ("A4.2", "freq=3 byhour=24 room=100", "refused 5"),
    ("A4.2", "freq=3 byhour=9,8 room=100", "refused 6"),
    ("A4.2", "freq=1 byday=0:0,2:1 room=100", "refused 7"),
    ("A4.2", "freq=3 byday=1:0 room=100", "refused 8"),
    ("A4.2", "freq=3 bysetpos=1 room=100", "refused 9"),
    ("A4.2", "freq=3 interval=0 room=100", "refused 10"),
    ("A4.2", "freq=3 count=0 room=100", "refused 10"),
    ("A4.2", "freq=3 count=1 until=0 room=100", "refused 11"),
    ("A4.2", "freq=1 byweekno=1 room=100", "refused 12"),
    ("A4.3", "freq=3 interval=0 room=0", "refused 10"),
    ("A4.3", "freq=3 room=10", b"FREQ=DAILY"),
    ("A4.3", "freq=3 room=9", "short 10"),
    ("A4.3", "freq=3 room=0", "short 10"),
    ("A4.4", "freq=3 room=16384", b"FREQ=DAILY"),
    ("A4.5", "freq=0 interval=2 bymonth=1 byday=0:6 byhour=8,9 byminute=30 room=100", LONG_EXAMPLE),
    ("A4.5", "byminute=30 room=100 byhour=8,9 byday=0:6 bymonth=1 interval=2 freq=0", LONG_EXAMPLE),
    ("A4.5", "freq=4 interval=2 count=3 wkst=6 bymonth=1 bymonthday=-1,2 byyearday=-3,4 byday=0:5 byhour=6 byminute=7 bysecond=8 bysetpos=-9,9 room=200",
     b"FREQ=HOURLY;INTERVAL=2;COUNT=3;WKST=SU;BYMONTH=1;BYMONTHDAY=-1,2;BYYEARDAY=-3,4;BYDAY=SA;BYHOUR=6;BYMINUTE=7;BYSECOND=8;BYSETPOS=-9,9"),
    ("A4.5", "freq=0 until=253402300799 byweekno=-53,53 byday=0:0,0:6 room=200",
     b"FREQ=YEARLY;UNTIL=99991231T235959Z;BYWEEKNO=-53,53;BYDAY=MO,SU"),
    ("A4.6", "freq=3 interval=1 wkst=0 room=100", b"FREQ=DAILY"),
    ("A4.6", "freq=1 byday=-1:0,1:0 room=100", b"FREQ=MONTHLY;BYDAY=-1MO,1MO"),
    ("A4.6", "freq=3 until=0 room=100", b"FREQ=DAILY;UNTIL=19700101T000000Z"),
    ("A4.7", "freq=1 interval=1 wkst=0 byday=1:0 room=100", MONTHLY_FIRST),
    ("B7", "freq=1 byday=1:0 room=100", MONTHLY_FIRST),
    ("B7", "freq=1 interval=0 room=0", "refused 10"),
    ("B7", "freq=0 interval=2 bymonth=1 byday=0:6 byhour=8,9 byminute=30 room=63", "short 64"),
    ("B7", "freq=0 interval=2 bymonth=1 byday=0:6 byhour=8,9 byminute=30 room=64", LONG_EXAMPLE),
    ("D3", "freq=1 byday=1:0 room=22", MONTHLY_FIRST),
    ("D3", "freq=1 byday=1:0 room=21", "short 22"),
]

# Lines whole, from D3.
LINES = [
    ("read 465245513d4441494c59", "rule freq=3 interval=1 wkst=0 rest=kept"),
    ("read 465245513d4441494c", "refused 9 rest=kept"),
    ("read -", "refused 0 rest=kept"),
    ("write freq=1 byday=1:0 room=22", "text 465245513d4d4f4e54484c593b42594441593d314d4f rest=kept"),
    ("write freq=1 byday=1:0 room=21", "short 22 rest=kept"),
    ("write freq=1 interval=0 room=0", "refused 10 rest=kept"),
]


def lines():
    """Every line that the page's texts and rules make."""
    yield from (read_line(text) for _, text, _ in READ)
    yield from (f"write {words}" for _, words, _ in WRITTEN)
    yield from (line for line, _ in LINES)
