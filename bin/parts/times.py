"""Times of the user's words: `D/M/U`, and ISO 8601 in UTC.

D counts days since 1958-01-01, M milliseconds of the day and U microseconds of the millisecond (CCSDS 301.0-B, day
segmented). `D/M/Pp` has picoseconds of the millisecond in place of microseconds.
"""
import datetime
import re

EPOCH = datetime.date(1958, 1, 1)
DAY = 86_400_000
FORMS = "a time is ISO 8601 in UTC, as 2026-11-30T10:00:00Z, or D/M/U, as 25170/36000000/0"
ISO = re.compile(r"(\d{4})-(\d\d)-(\d\d)T(\d\d):(\d\d):(\d\d)(?:\.(\d{1,6}))?Z", re.ASCII)
NUMBER = r"(0|[1-9]\d*)"
FIELDS = re.compile(rf"{NUMBER}/{NUMBER}/{NUMBER}(p?)", re.ASCII)


class BadTime(ValueError):
    """A word that is no time, with the reason."""


def of_iso(word):
    """The fields D/M/U of a time of ISO 8601."""
    found = ISO.fullmatch(word)
    if not found:
        raise BadTime(FORMS)
    year, month, day, hour, minute, second = map(int, found.groups()[:6])
    if second == 60:
        raise BadTime("a second 60 has no fields D/M/U: leap seconds can't be named")
    if hour > 23 or minute > 59 or second > 59:
        raise BadTime("hours go to 23, minutes and seconds to 59")
    try:
        days = (datetime.date(year, month, day) - EPOCH).days
    except ValueError:
        raise BadTime("there is no such day")
    if not 0 <= days <= 65_535:
        raise BadTime("days go from 1958-01-01 to 2137-06-06")
    micros = int((found[7] or "").ljust(6, "0"))
    millis = ((hour * 60 + minute) * 60 + second) * 1000 + micros // 1000
    return f"{days}/{millis}/{micros % 1000}"


def check_fields(word):
    """The same word, where it is a time of the form D/M/U or D/M/Pp."""
    found = FIELDS.fullmatch(word)
    if not found:
        raise BadTime(FORMS)
    days, millis, rest = map(int, found.groups()[:3])
    most = 999_999_999 if found[4] else 999
    if days > 65_535 or millis >= DAY or rest > most:
        raise BadTime("D goes to 65535, M to 86399999, U to 999 (with p behind it, to 999999999)")
    return word


def fields_of(word):
    """The fields of a time in either form."""
    return of_iso(word) if "T" in word or "-" in word else check_fields(word)


def iso_of(word):
    """The time of fields as ISO 8601 has it, to the microsecond or, where they say so, the picosecond."""
    days, millis, rest = check_fields(word).split("/")
    day = EPOCH + datetime.timedelta(days=int(days))
    seconds, milli = divmod(int(millis), 1000)
    minutes, second = divmod(seconds, 60)
    hour, minute = divmod(minutes, 60)
    part = rest[:-1].rjust(9, "0") if rest.endswith("p") else rest.rjust(3, "0")
    return f"{day}T{hour:02}:{minute:02}:{second:02}.{milli:03}{part}Z"


def other_form(word):
    """The same time in the other form."""
    return of_iso(word) if "T" in word or "-" in word else iso_of(word)


def script_of_iso(text):
    """A script's octets, whose words that are times of ISO 8601 became fields."""
    def put(found):
        try:
            return of_iso(found[0].decode()).encode()
        except BadTime:
            return found[0]

    return re.sub(rb"(?<![^ ])\d{4}-\d\d-\d\dT[0-9:.]+Z(?![^ \n])", put, text)
