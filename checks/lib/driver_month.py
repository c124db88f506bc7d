"""What the driver's page has to show of a month, by the replies of the program: sentences, rows and bars, in English and in German. The
sentences are written here a second time, and are no part of the page's scripts."""
import datetime
import re
import zoneinfo
from collections.abc import Callable, Mapping, Sequence
from typing import Any

ZONE = zoneinfo.ZoneInfo("Europe/Berlin")
DAY = 1440
FIRST_BREACHES = 2

Texts = list[str]
Ask = Callable[[str], str]


# Sentences

def lasting(minutes: int, unit: str) -> str:
    """A duration: from an hour on in hours and minutes."""
    hours, rest = divmod(minutes, 60)
    if minutes < 60:
        return f"{minutes} {unit}"
    return f"{hours} h {rest:02}" if rest else f"{hours} h"


def en(minutes: int) -> str:
    """A duration in English."""
    return lasting(minutes, "min")


def de(minutes: int) -> str:
    """A duration in German."""
    return lasting(minutes, "Min.")


LASTING = {"en": en, "de": de}
ORDINALS = {number: f"{number}th" for number in [*range(4, 21), 111]} | {21: "21st", 22: "22nd", 23: "23rd", 101: "101st"}

Sentences = Mapping[str, Callable[[int], str]]

ENGLISH: Sentences = {
    "B1": lambda amount: f"{en(270 + amount)} of driving without a full break of 45 minutes (or of 15 and then 30). The limit is 4 h 30.",
    "B2": lambda amount: f"The next rest of 9 h or more began {en(amount)} too late. It has to begin within 15 h of the start of the day.",
    "B3": lambda amount: f"{ORDINALS[3 + amount]} daily rest since the last weekly rest of which less than 11 h lay within 24 h of the "
                         "start of the day. The limit is 3.",
    "B4": lambda amount: f"{en(600 + amount)} of driving in one day, from one rest of 9 h or more to the next. The limit is 10 h.",
    "B5": lambda amount: f"{en(540 + amount)} of driving in one day, after two other days of the week with more than 9 h. The limit is two "
                         "such days in a week.",
    "B6": lambda amount: f"{en(3360 + amount)} of driving in one week. The limit is 56 h.",
    "B7": lambda amount: f"{en(5400 + amount)} of driving in two consecutive weeks. The limit is 90 h.",
    "B8": lambda amount: f"The weekly rest began {en(amount)} too late. It has to begin within six times 24 h of the end of the last one.",
    "B9": lambda amount: "Two consecutive weeks have a weekly rest too few: they need two of 24 h or more, one of them of 45 h or more, "
                         "and each rest counts once. Around leave an officer may count otherwise.",
    "B10": lambda amount: f"A weekly rest was {en(amount)} short of 45 h, and this wasn't made up in one piece by the end of the third "
                          "week after it.",
}
GERMAN: Sentences = {
    "B1": lambda amount: f"{de(270 + amount)} Lenkzeit ohne volle Fahrtunterbrechung von 45 Minuten (oder von 15 und danach 30). Die "
                         "Grenze ist 4 h 30.",
    "B2": lambda amount: f"Die nächste Ruhezeit von 9 h oder mehr begann {de(amount)} zu spät. Sie muss innerhalb von 15 h ab dem Beginn "
                         "des Tages beginnen.",
    "B3": lambda amount: f"{3 + amount}. tägliche Ruhezeit seit der letzten wöchentlichen, von der weniger als 11 h innerhalb von 24 h ab "
                         "dem Beginn des Tages lagen. Die Grenze ist 3.",
    "B4": lambda amount: f"{de(600 + amount)} Lenkzeit an einem Tag, von einer Ruhezeit von 9 h oder mehr bis zur nächsten. Die Grenze ist "
                         "10 h.",
    "B5": lambda amount: f"{de(540 + amount)} Lenkzeit an einem Tag, nach zwei anderen Tagen der Woche mit mehr als 9 h. Die Grenze sind "
                         "zwei solche Tage in einer Woche.",
    "B6": lambda amount: f"{de(3360 + amount)} Lenkzeit in einer Woche. Die Grenze ist 56 h.",
    "B7": lambda amount: f"{de(5400 + amount)} Lenkzeit in zwei aufeinanderfolgenden Wochen. Die Grenze ist 90 h.",
    "B8": lambda amount: f"Die wöchentliche Ruhezeit begann {de(amount)} zu spät. Sie muss innerhalb von sechs mal 24 h nach dem Ende der "
                         "letzten beginnen.",
    "B9": lambda amount: "In zwei aufeinanderfolgenden Wochen fehlt eine wöchentliche Ruhezeit: nötig sind zwei von 24 h oder mehr, davon "
                         "eine von 45 h oder mehr, und jede Ruhezeit zählt einmal. Um einen Urlaub zählt ein Kontrolleur vielleicht "
                         "anders.",
    "B10": lambda amount: f"Eine wöchentliche Ruhezeit war um {de(amount)} kürzer als 45 h, und das wurde nicht bis zum Ende der dritten "
                          "Woche danach am Stück ausgeglichen.",
}
BREACHES = {"en": ENGLISH, "de": GERMAN}

# The amounts of each kind at which its sentence is compared. Those of B3 are numbers of rests, and B9 has none.
MINUTES = [1, 2, 29, 30, 31, 59, 60, 61, 119, 120, 539, 541, 600, 1260, 5131]
AMOUNTS = {
    "B1": [1, 20, *MINUTES], "B2": [*MINUTES, 479, 480, 481, 538, 540, 599, 680], "B3": [1, 2, 3, 8, 9, 10, 15, 18, 19, 20, 98, 108],
    "B9": [0],
}

KINDS = ["B1", "B2", "B3", "B4", "B5", "B6", "B7", "B8", "B9", "B10"]
TITLES = {
    "en": dict(zip(KINDS, ["Break", "Daily rest", "Reduced daily rests", "Daily driving", "Extended days", "Weekly driving",
                           "Driving in two weeks", "Weekly rest", "Weekly rests of two weeks", "Rest not made up"], strict=True)),
    "de": dict(zip(KINDS, ["Fahrtunterbrechung", "Tägliche Ruhezeit", "Reduzierte Ruhezeiten", "Tageslenkzeit", "Verlängerte Tage",
                           "Wochenlenkzeit", "Lenkzeit in zwei Wochen", "Wöchentliche Ruhezeit", "Wochenruhen von zwei Wochen",
                           "Nicht ausgeglichene Ruhezeit"], strict=True)),
}
GERMAN_ARTICLES = {
    "7": "7", "8(2)": "8 Absatz 2", "8(4)": "8 Absatz 4", "6(1)": "6 Absatz 1", "6(2)": "6 Absatz 2", "6(3)": "6 Absatz 3",
    "8(6)": "8 Absatz 6", "8(6b)": "8 Absatz 6b",
}
WORDS = {
    "en": {"break": "full break", "drive": "driving", "rest": "rest", "day": "day", "limit": "24 h end", "weekly": "weekly rest",
           "reduced": "reduced rest", "week": "week", "date": "day", "owes": "to make up", "main": "main rest"},
    "de": {"break": "volle Unterbrechung", "drive": "Lenken", "rest": "Ruhe", "day": "Tag", "limit": "Ende der 24 h",
           "weekly": "Wochenruhe", "reduced": "reduzierte Ruhe", "week": "Woche", "date": "Tag", "owes": "auszugleichen",
           "main": "Hauptruhe"},
}
DAYS = {"en": ["Mon", "Tue", "Wed", "Thu", "Fri", "Sat", "Sun"], "de": ["Mo", "Di", "Mi", "Do", "Fr", "Sa", "So"]}
MONTHS = {
    "en": "January February March April May June July August September October November December".split(),
    "de": "Januar Februar März April Mai Juni Juli August September Oktober November Dezember".split(),
}
OTHERS: dict[str, dict[str, str]] = {
    "en": {
        "late": "{} late", "lacking": "{} lacking", "over": "{} over", "to": "to", "local": "local",
        "longest": "The longest rest within these 24 h had {}.",
        "longest part": "Of the longest rest within these 24 h, {} lay in them (of {}).",
        "why": "counted since {} · Regulation (EC) No 561/2006, Article {} ({})",
        "open": "not known", "within": "of which {} within the 24 h", "room": "{} could make up", "in": "may count for the week from {}",
        "at rest": "at rest throughout",
        "no breach": "No breach was found in what was examined of this month.",
        "none examined": "Nothing of this month was examined, so no breach can be shown.",
        "others": "Other months{}", "one": " (1 breach)", "many": " ({} breaches)",
        "more": "{} more breaches in this month", "one more": "1 more breach in this month",
        "whole": "This month is examined as a whole.", "no file": "No card file yet.",
        "known to": "Known and examined to {}. What comes after it isn't in the archive yet.",
        "known before": "Known to {}, before this month.",
        "base": "Before {}, from which this driver is examined, nothing was looked at.",
        "from on": "from {} on", "again": "The examination begins again on the next Monday, {}, without regard to what came before.",
        "gap": "Unknown are the {} from {} to {}.", "unknown": "It isn't known what happened from then on.",
        "crew": "There was a second driver. Driving with a second driver isn't examined.",
        "no looks": "Where nothing is examined no breach is shown, whether there was one or not.",
        "no debts": "No reduced weekly rest is known that still has to be made up.",
        "open debt": "{amount} for the week from {week}: in one piece, beside a rest of 9 h or more, before {by}.",
        "late debt": "{amount} for the week from {week} had to be taken before {by}. It wasn't taken by then.",
        "broken debt": "{amount} for the week from {week}, before {by}: it isn't known whether it was taken, since the hours after it "
                       "aren't known.",
        "paid debt": "{amount} for the week from {week}: made up with the rest of {at}.",
        "no hours": "Nothing of this month is known.", "no gaps": "No hour of this month is missing, up to the end of what is known.",
        "month": "Month", "not yet": "not yet",
        "bad key": "No driver has this key. Check it, or ask your office.",
        "known": "Known to {}. {}Assumes rest from the last known hour until the start. Whatever was driven since isn't in it.",
        "stale": "Known only to {} days before the start: don't rely on it. ",
        "old": "The last known hour is {held}, {days} days before this start. So nothing can be said of what is left. Bring your card to "
               "be read.",
        "broken": "Nothing can be said of what is left, since what is known from {} to {} isn't examined.",
        "coming": "Even if nothing more is driven:",
        "left B1": "until a full break of 45 min", "left day": "of driving in the day",
        "left day 9": "of driving in the day (10 h twice a week, both used)",
        "left rest": "latest start of a daily rest of 9 h (of 11 h: {})",
        "left short": "latest start of a daily rest of 9 h (it is too late for one of 11 h)",
        "left long": "latest start of the daily rest of 11 h: the three short rests are used",
        "left week": "of driving this week (driven {} of 56:00)", "left two": "of driving in this week and the last (driven {} of 90:00)",
        "left weekly": "latest start of the weekly rest", "used": "Reduced daily rests: {} of 3 · days over 9 h: {} of 2",
    },
    "de": {
        "late": "{} zu spät", "lacking": "{} fehlen", "over": "{} darüber", "to": "bis", "local": "Ortszeit",
        "longest": "Die längste Ruhezeit innerhalb dieser 24 h hatte {}.",
        "longest part": "Von der längsten Ruhezeit lagen {} innerhalb dieser 24 h (von {}).",
        "why": "gezählt seit {} · Verordnung (EG) Nr. 561/2006, Artikel {} ({})",
        "open": "nicht bekannt", "within": "davon {} innerhalb der 24 h", "room": "{} konnten ausgleichen",
        "in": "kann zählen für die Woche ab {}", "at rest": "durchgehend Ruhe",
        "no breach": "In dem, was von diesem Monat geprüft ist, wurde kein Verstoß gefunden.",
        "none examined": "Von diesem Monat wurde nichts geprüft, also kann kein Verstoß gezeigt werden.",
        "others": "Andere Monate{}", "one": " (1 Verstoß)", "many": " ({} Verstöße)",
        "more": "{} weitere Verstöße in diesem Monat", "one more": "1 weiterer Verstoß in diesem Monat",
        "whole": "Dieser Monat ist ganz geprüft.", "no file": "Noch keine Kartendatei.",
        "known to": "Bekannt und geprüft bis {}. Was danach kommt, ist noch nicht im Archiv.",
        "known before": "Bekannt bis {}, vor diesem Monat.",
        "base": "Vor {}, ab dem geprüft wird, wurde nichts angesehen.",
        "from on": "ab {}", "again": "Die Prüfung beginnt wieder am nächsten Montag, {}, ohne Rücksicht auf das, was vorher war.",
        "gap": "Unbekannt sind {}, von {} bis {}.", "unknown": "Ab dann ist nicht bekannt, was war.",
        "crew": "Ein zweiter Fahrer war dabei. Fahren zu zweit wird nicht geprüft.",
        "no looks": "Wo nichts geprüft ist, wird kein Verstoß gezeigt, ob es einen gab oder nicht.",
        "no debts": "Keine reduzierte wöchentliche Ruhezeit ist bekannt, die noch auszugleichen ist.",
        "open debt": "{amount} für die Woche ab {week}: am Stück, neben einer Ruhezeit von 9 h oder mehr, vor {by}.",
        "late debt": "{amount} für die Woche ab {week} waren vor {by} zu nehmen. Bis dahin wurden sie nicht genommen.",
        "broken debt": "{amount} für die Woche ab {week}, vor {by}: Es ist nicht bekannt, ob sie genommen wurden, denn die Stunden danach "
                       "sind nicht bekannt.",
        "paid debt": "{amount} für die Woche ab {week}: ausgeglichen mit der Ruhezeit vom {at}.",
        "no hours": "Von diesem Monat ist nichts bekannt.",
        "no gaps": "In diesem Monat fehlt keine Stunde, bis zum Ende dessen, was bekannt ist.",
        "month": "Monat", "not yet": "noch nicht",
        "bad key": "Diesen Schlüssel hat kein Fahrer. Prüfen Sie ihn, oder fragen Sie Ihr Büro.",
        "no connection": "Es gibt keine Verbindung zum Archiv. Was gespeichert war, ist nicht verloren. Versuchen Sie es später noch "
                         "einmal, oder fragen Sie Ihr Büro.",
        "known": "Bekannt bis {}. {}Angenommen ist Ruhe von der letzten bekannten Stunde bis zum Beginn. Was seitdem gefahren wurde, ist nicht "
                 "dabei.",
        "stale": "Nur bis {} Tage vor dem Beginn bekannt: nicht verlässlich. ",
        "old": "Die letzte bekannte Stunde ist {held}, {days} Tage vor diesem Beginn. Darum lässt sich nicht sagen, was noch geht. Lassen "
               "Sie Ihre Karte auslesen.",
        "broken": "Was noch geht, lässt sich nicht sagen, denn was von {} bis {} bekannt ist, ist nicht geprüft.",
        "coming": "Auch wenn nicht mehr gefahren wird:",
        "left B1": "bis zu einer vollen Unterbrechung von 45 Min.", "left day": "Lenken an diesem Tag",
        "left day 9": "Lenken an diesem Tag (die zwei 10-Stunden-Tage der Woche sind verbraucht)",
        "left rest": "spätester Beginn einer täglichen Ruhezeit von 9 h (von 11 h: {})",
        "left short": "spätester Beginn einer täglichen Ruhezeit von 9 h (für eine von 11 h ist es zu spät)",
        "left long": "spätester Beginn der täglichen Ruhezeit von 11 h: die drei kurzen sind verbraucht",
        "left week": "Lenken in dieser Woche (gelenkt {} von 56:00)",
        "left two": "Lenken in dieser und der letzten Woche (gelenkt {} von 90:00)",
        "left weekly": "spätester Beginn der Wochenruhe", "used": "Reduzierte tägliche Ruhen: {} von 3 · Tage über 9 h: {} von 2",
    },
}


# Times

def instant(text: str) -> datetime.datetime:
    """The moment of a text `YYYY-MM-DD` or `YYYY-MM-DD HH:MM`."""
    return datetime.datetime.fromisoformat(text).replace(tzinfo=datetime.UTC)


def minutes_of(text: str) -> int:
    """The minute of a text, counted from the beginning of 1970."""
    return int(instant(text).timestamp()) // 60


def text_of(minute: int) -> str:
    """The text of a minute."""
    return f"{datetime.datetime.fromtimestamp(60 * minute, datetime.UTC):%Y-%m-%d %H:%M}"


def day_text(language: str, when: datetime.date) -> str:
    """A day as it is said."""
    weekday = DAYS[language][when.weekday()]
    return f"{weekday} {when:%d.%m.%Y}" if language == "de" else f"{weekday} {when.day} {MONTHS['en'][when.month - 1][:3]} {when.year}"


def short_day(language: str, when: datetime.date) -> str:
    """A day as it is said without its year."""
    return day_text(language, when)[:-4].rstrip()


def local_text(language: str, text: str) -> str:
    """A moment in local time."""
    local = instant(text).astimezone(ZONE)
    return f"{short_day(language, local)} {local:%H:%M}"


def moment_text(language: str, text: str) -> str:
    """A moment as it is said, in local time and in UTC."""
    utc = instant(text)
    day = "" if utc.astimezone(ZONE).date() == utc.date() else f"{short_day(language, utc)} "
    return f"{local_text(language, text)} ({day}{utc:%H:%M} UTC)"


def month_text(language: str, month: str) -> str:
    """A month as it is said."""
    year, number = map(int, month.split("-"))
    return f"{MONTHS[language][number - 1]} {year}"


def length_in(text: str) -> int:
    """The minutes of a length."""
    sign = -1 if text.startswith("-") else 1
    hours, minutes = text.lstrip("-").split(":")
    return sign * (60 * int(hours) + int(minutes))


# A month

Stretch = tuple[str, list[str], str, str, str]  # its Monday, its lines, its horizon with the cause, and the past of what isn't examined


def stretches_in(text: str) -> list[Stretch]:
    """The stretches of a reply to `stretches` or `debts`."""
    found = []
    for part in re.split(r"^FROM ", text, flags=re.MULTILINE)[1:]:
        monday, *lines = part.splitlines()
        past = lines.pop()[-16:] if lines[-1].startswith("NOT EXAMINED ") else ""
        horizon, cause = lines.pop().removeprefix("EXAMINED TO ").rsplit(" ", 1)
        found.append((monday, lines, horizon, cause, past))
    return found


def lines_of(text: str) -> list[str]:
    """The lines of a reply. A name may have signs at which Python ends lines too."""
    return text.split("\n")[:-1]


def breach_parts(line: str) -> tuple[str, str, str, str, int]:
    """Kind, article, moment, first minute and amount of a breach."""
    kind, article, at, since, amount = re.fullmatch(r"(\S+) Art (\S+) at (.*) since (.*) amount (\d+)", line).groups()
    return kind, article, at, since, int(amount)


Entry = tuple[str, str, str]  # a start, a past, and an activity
# The mark of a line with hours that were entered by hand, and what is said of it.
HAND = {"en": (" (by hand)", "By hand: entered by hand, in part or whole."),
        "de": (" (von Hand)", "Von Hand: zum Teil oder ganz von Hand eingetragen.")}
MOMENT = r"(-|\d{4}-\d\d-\d\d \d\d:\d\d)"


def kept_entries(text: str) -> list[Entry]:
    """The entries that haven't been withdrawn."""
    return re.findall(r"^\d+ (.{16}) (.{16}) (\w+) kept ", text, re.MULTILINE)


def is_by_hand(row: str, entries: Sequence[Entry]) -> bool:
    """Whether an entry lies in a line of evidence. In a sum of driving only driving counts; of a rest of which one end isn't known, the
    minute at the other end."""
    counted = list(entries)
    if match := re.match(r"(date|week) (\S+) (drive |at rest)", row):
        start = minutes_of(f"{match[2]} 00:00")
        past = start + DAY * (1 if match[1] == "date" else 7)
        counted = counted if match[3] == "at rest" else [one for one in counted if one[2] == "drive"]
    elif match := re.match(rf"\w+ (?:\d+ )?{MOMENT} {MOMENT}(?: |$)", row):
        start = minutes_of(match[2]) - 1 if match[1] == "-" else minutes_of(match[1])
        past = start + 1 if match[2] == "-" else minutes_of(match[2])
    else:
        return False
    return any(minutes_of(one[0]) < past and start < minutes_of(one[1]) for one in counted)


class Month:
    """A driver's month by the replies of the program, at a clock."""

    def __init__(self, ask: Ask, month: str, clock: str) -> None:
        self.month = month
        self.clock = clock
        self.sheet = lines_of(ask(f"/me/sheet/{month}"))
        self.spans = [row.split(",") for row in lines_of(ask(f"/me/spans/{month}"))[1:]]
        self.stretches = stretches_in(ask("/me/stretches"))
        self.debts = stretches_in(ask("/me/debts"))
        self.why = [part.split("\n  ") for part in re.findall(r"^\S.*(?:\n  .*)*", ask(f"/me/why/{month}"), re.MULTILINE)]
        files = [line.split(" ", 3)[3][17:33] for line in lines_of(ask("/me/files"))]
        self.entries = kept_entries(ask("/me/entries"))
        entries = [past for _, past, _ in self.entries]
        monday, _, horizon, _, past = self.stretches[-1]
        examined = [past or horizon] if (past or horizon) > f"{monday} 00:00" else []
        self.end = max([*files, *entries, *examined], default="")
        self.first = f"{month}-01 00:00"
        self.past = text_of(minutes_of(f"{(instant(month + '-01') + datetime.timedelta(days=31)):%Y-%m}-01"))
        whole = [[line[:16], line[17:]] for line in lines_of(ask(f"/me/gaps/{month}"))]
        self.gaps = [[start, min(past, self.end)] for start, past in whole if start < self.end]
        self.days = [line for line in self.sheet if re.match(r"\d{4}-", line)]
        shown = max(self.end, clock)
        self.later = [line for line in self.days if f"{line[:10]} 00:00" >= shown]
        self.ahead = ask(f"/me/ahead/{self.start()[:10]}/{self.start()[11:]}")

    def start(self) -> str:
        """The next six o'clock, local time, in UTC."""
        local = instant(self.clock).astimezone(ZONE)
        six = local.replace(hour=6, minute=0)
        six = six if six > local else (local + datetime.timedelta(days=1)).replace(hour=6, minute=0)
        return f"{six.astimezone(datetime.UTC):%Y-%m-%d %H:%M}"

    def breaches(self) -> list[str]:
        """The lines of the month's breaches."""
        return [line for line, *_ in self.why]

    def heading(self, language: str) -> Texts:
        """The driver's name, and the month."""
        return [self.sheet[0].split(" ", 2)[2], month_text(language, self.month)]

    def unseen(self) -> list[tuple[str, str, str, str]]:
        """What isn't examined of the month: start, past, why, and from when on it is examined again."""
        found, start, cause = [], "0000", "base"
        for monday, _, horizon, reason, _ in [*self.stretches, ("", [], "", "", "")]:
            again = f"{monday} 00:00" if monday else "9999"
            left, right = max(start, self.first), min(again, self.past)
            if left < right:
                found.append((left, right, cause, again))
            start, cause = horizon, reason
        return found

    def sentence(self, language: str, line: str, evidence: Sequence[str]) -> str:
        """The sentence on a breach."""
        kind, _, _, since, amount = breach_parts(line)
        sentence = BREACHES[language][kind](amount)
        if kind != "B2":
            return sentence
        within, length = 0, 0
        for match in (re.match(r"rest (\d.{15}) (\d.{15}) ", row) for row in evidence):
            if match:
                start, past = minutes_of(match[1]), minutes_of(match[2])
                part = min(past, minutes_of(since) + DAY) - max(start, minutes_of(since))
                within, length = (part, past - start) if part > within else (within, length)
        said, lasts = OTHERS[language], LASTING[language]
        if within == 0:
            return sentence
        longest = said["longest"] if within == length else said["longest part"]
        return f"{sentence} {longest.format(lasts(within), lasts(length))}"

    def breach_texts(self, language: str) -> list[Texts]:
        """Each breach: title, amount, sentence, moment, and by which Article; or that there is none."""
        said, found = OTHERS[language], []
        for line, *evidence in self.why:
            kind, article, at, since, amount = breach_parts(line)
            many = LASTING[language](amount)
            word = {"B2": "late", "B8": "late", "B10": "lacking"}.get(kind, "over")
            much = "" if kind == "B9" else f"+{amount}" if kind == "B3" else said[word].format(many)
            cited = GERMAN_ARTICLES[article] if language == "de" else article
            found.append([TITLES[language][kind], much, self.sentence(language, line, evidence), moment_text(language, at),
                          said["why"].format(moment_text(language, since), cited, kind)])
        if found:
            return found
        seen = sum(minutes_of(past) - minutes_of(start) for start, past, _, _ in self.unseen())
        return [[said["none examined" if seen == DAY * len(self.days) else "no breach"]]]

    def more_text(self, language: str) -> Texts:
        """How many breaches are folded up."""
        count = len(self.why) - FIRST_BREACHES
        return [] if count < 1 else [OTHERS[language]["one more"] if count == 1 else OTHERS[language]["more"].format(count)]

    def evidence_texts(self, language: str) -> list[list[Texts]]:
        """The rows that show each breach, and what is said of those with hours that were entered by hand."""
        found = []
        for line, *evidence in self.why:
            kind, _, _, since, _ = breach_parts(line)
            rows = evidence
            if kind == "B9":
                first = text_of(minutes_of(since) - 14 * DAY)
                rows = [row for row in rows if self.end_of(row) >= first]
            marked = [is_by_hand(row, self.entries) for row in rows]
            cells = [self.evidence_row(language, row) for row in rows]
            mark, said = HAND[language]
            found.append([[first + mark * has_mark, *others] for has_mark, (first, *others) in zip(marked, cells, strict=True)])
            found[-1] += [[said]] * any(marked)
        return found

    @staticmethod
    def end_of(row: str) -> str:
        """Up to when a line of a B9 goes, by which it is shown or not: a week by its Monday, and a rest by its past."""
        if row.startswith("from "):
            return ""
        past = re.match(r"week (\S+)|weekly (?:-|.{16}) (-|.{16}) ", row)
        return f"{past[1]} 00:00" if past[1] else past[2].replace("-", "9999", 1) if past[2] == "-" else past[2]

    @staticmethod
    def evidence_row(language: str, row: str) -> Texts:
        """A line of evidence as a row: what it is, from, to, length, and the sum or a remark."""
        said = OTHERS[language]

        def moment(text: str) -> str:
            """A moment in a row."""
            return said["open"] if text == "-" else f"{local_text(language, text)} {text[11:]} UTC"

        word, rest = row.split(" ", 1)
        name = WORDS[language][word]
        if match := re.fullmatch(r"(-|\d.{15}) (-|\d.{15}) (-|\S+)(?: (portion|room|in) (.*))?", rest):
            start, past, length, what, more = match.groups()
            if what == "in":
                more = ", ".join(day_text(language, instant(day)) for day in more.split(" "))
            elif what in ("portion", "room"):
                more = "0:00" if more.startswith("-") else more
            remark = "" if what is None else said[{"portion": "within"}.get(what, what)].format(more)
            return [name, moment(start), moment(past), "" if length == "-" else length, remark]
        if match := re.fullmatch(r"(\d.{15}) (\d.{15}) (\S+) (\S+)", rest):
            return [name, moment(match[1]), moment(match[2]), match[3], match[4]]
        if match := re.fullmatch(r"(?:\d+ )?(\d{4}.{12}) (\d{4}.{12})(?: drive (\S+))?", rest):
            return [name, moment(match[1]), moment(match[2]), "", match[3] or ""]
        if match := re.fullmatch(r"\d+ (\d{4}.{12}) (\d{4}.{12}) (\S+) day .{16} portion (\S+)", rest):
            return [name, moment(match[1]), moment(match[2]), match[3], said["within"].format("0:00" if match[4][0] == "-" else match[4])]
        if word == "limit":
            return [name, moment(rest), "", "", ""]
        if match := re.fullmatch(r"(\S+) (\S+) by (.*)", rest):
            return [name, short_day(language, instant(match[1])), moment(match[3]), match[2], ""]
        if match := re.fullmatch(r"(\S+) drive (\S+) (\S+)", rest):
            return [name, short_day(language, instant(match[1])), "", match[2], match[3]]
        match = re.fullmatch(r"(\S+)( at rest| drive (\S+))?", rest)
        return [name, short_day(language, instant(match[1])), "", "", said["at rest"] if match[2] == " at rest" else match[3] or ""]

    def other_texts(self, language: str) -> Texts:
        """How many breaches other months have, the latest first."""
        said = OTHERS[language]
        months = [breach_parts(line)[2][:7] for _, lines, _, _, _ in self.stretches for line in lines]
        others = [month for month in months if month != self.month]
        count = "" if not others else said["one"] if len(others) == 1 else said["many"].format(len(others))
        return [said["others"].format(count),
                *[f"{month_text(language, month)} ({others.count(month)})" for month in reversed(dict.fromkeys(others))]]

    def examined_texts(self, language: str) -> Texts:
        """What isn't examined, and why; or a quiet line."""
        said, unseen = OTHERS[language], self.unseen()
        horizon = self.stretches[-1][2]
        found = []
        if unseen and unseen[-1][3] == "9999" and unseen[-1][2] == "unknown" and horizon >= self.end:
            start = unseen.pop()[0]
            where = "known to" if start > self.first else "known before"
            text = said[where].format(moment_text(language, start if start > self.first else horizon))
            found.append(text if self.end else said["no file"])
        elif not unseen:
            found.append(said["whole"])
        for start, past, cause, again in unseen:
            if cause == "base":
                found.append(said["base"].format(day_text(language, instant(past))))
                continue
            ends = moment_text(language, start), moment_text(language, past)
            gap = next((gap for gap in self.gaps if gap[0] == start), None) if cause == "unknown" else None
            reason = said[cause] if gap is None else said["gap"].format(
                LASTING[language](minutes_of(gap[1]) - minutes_of(gap[0])), *(moment_text(language, text) for text in gap))
            where = said["from on"].format(ends[0]) if again == "9999" else f"{ends[0]} {said['to']} {ends[1]}"
            found.append(f"{where}. {reason}{'' if again == '9999' else ' ' + said['again'].format(day_text(language, instant(again)))}")
        return [*found, *([said["no looks"]] if unseen else [])]

    def debt_texts(self, language: str) -> Texts:
        """What is to be made up, then what was made up for."""
        said, left, broken, paid = OTHERS[language], [], [], []
        for place, (_, lines, _, _, _) in enumerate(self.debts):
            is_last = place == len(self.debts) - 1
            for line in lines:
                week, amount, by, end, at = re.fullmatch(r"WEEK (\S+) owes (\d+) by (.{16}) (\w+) ?(.*)", line).groups()
                kind = end if end == "paid" or is_last else "broken"
                text = said[f"{kind} debt"].format(week=day_text(language, instant(week)), amount=LASTING[language](int(amount)),
                                                   by=moment_text(language, by), at=moment_text(language, at) if at else "")
                if end == "paid":
                    paid.insert(0, text)
                elif is_last:
                    left.append(text)
                elif end == "open" and by > self.debts[-1][2]:
                    broken.append(text)
        return [*([*left, *broken] or [said["no debts"]]), *paid[:12]]

    def gap_texts(self, language: str) -> Texts:
        """The gaps."""
        said = OTHERS[language]
        if self.end <= self.first:
            return [said["no hours"]]
        return [f"{moment_text(language, start)} {said['to']} {moment_text(language, past)} · "
                f"{LASTING[language](minutes_of(past) - minutes_of(start))}" for start, past in self.gaps] or [said["no gaps"]]

    def left_texts(self, language: str) -> Texts:
        """What is left: what it is based on, each field, and what is used; or why nothing can be said."""
        said, lasts = OTHERS[language], LASTING[language]
        if not self.end:
            return [said["no file"]]
        lines = self.ahead.splitlines()
        held = lines[1].removeprefix("EXAMINED TO ")[:16]
        if lines[2].startswith("NOT EXAMINED "):
            return [said["broken"].format(moment_text(language, held), moment_text(language, lines[2][-16:]))]
        start = lines[2].removeprefix("START ")
        away = minutes_of(start) - minutes_of(held)
        if away > 4 * DAY:
            return [said["old"].format(held=moment_text(language, held), days=away // DAY)]
        limits = {line.split(" ")[0]: (line.split(" until ")[1][:16], length_in(line.split(" left ")[1]))
                  for line in lines if re.match(r"B\d+ .* until ", line)}
        driven = [line.split(" ")[1:] for line in lines if line.startswith("DRIVEN ")]
        found = [said["known"].format(moment_text(language, held), said["stale"].format(away // DAY) if away > 2 * DAY else "")]
        if "B1" in limits:
            found.append(lasts(limits["B1"][1]) + said["left B1"])
        days = [limits[kind][1] for kind in ("B4", "B5") if kind in limits]
        if days:
            is_nine = "B5" in limits and limits["B5"][1] == min(days) and ("B4" not in limits or limits["B5"][1] < limits["B4"][1])
            found.append(lasts(min(days)) + said["left day 9" if is_nine else "left day"])
        if "B3" in limits and limits["B3"][0] <= limits.get("B2", ("9999",))[0]:
            found.append(local_text(language, limits["B3"][0]) + said["left long"])
        elif "B2" in limits:
            long = limits["B3"][0] if "B3" in limits else text_of(minutes_of(limits["B2"][0]) - 120)
            about = said["left rest"].format(f"{instant(long).astimezone(ZONE):%H:%M}") if long >= start else said["left short"]
            found.append(local_text(language, limits["B2"][0]) + about)
        if "B6" in limits:
            found.append(lasts(limits["B6"][1]) + said["left week"].format(driven[1][1]))
        two = sum(length_in(one[1]) for one in driven)
        if "B7" in limits and lines[0].removeprefix("FROM ") <= driven[0][0]:
            found.append(lasts(limits["B7"][1]) + said["left two"].format(f"{two // 60}:{two % 60:02}"))
        weekly = [limits[kind][0] for kind in ("B8", "B9") if kind in limits]
        if weekly:
            found.append(local_text(language, min(weekly)) + said["left weekly"])
        used = [next(line.split(" ")[1] for line in lines if line.startswith(word)) for word in ("REDUCED ", "EXTENDED ")]
        found.append(said["used"].format(*used))
        coming = [breach_parts(line) for line in lines if " since " in line and re.match(r"B\d", line)]
        return [*found, *([said["coming"]] if coming else []),
                *[f"{TITLES[language][kind]}, {moment_text(language, at)}: {BREACHES[language][kind](amount)}"
                  for kind, _, at, _, amount in coming]]

    def pieces(self, ranges: Sequence[Sequence[str]], day: str) -> list[tuple[int, int, Sequence[str]]]:
        """The pieces of ranges in a day: the first minute, how many minutes there are, and the range."""
        found = []
        for one in ranges:
            start, past = (minutes_of(text) - minutes_of(day) for text in one[:2])
            start, past = max(start, 0), min(past, DAY)
            if start < past:
                found.append((start, past - start, one))
        return found

    def day_shapes(self, language: str) -> list[dict[str, Any]]:
        """What each day of the chart has."""
        found = []
        for line in self.days[:len(self.days) - len(self.later)]:
            day, columns = line[:10], line[14:].split()
            pairs = zip(self.breaches(), self.breach_texts(language), strict=False)
            texts = [(breach_parts(breach)[2], *text[:2]) for breach, text in pairs]
            labels = [f"{instant(at).astimezone(ZONE):%H:%M} ({at[11:]} UTC) {title} {much}"
                      for at, title, much in texts if at.startswith(day)]
            minutes = [minutes_of(at) - minutes_of(day) for at, _, _ in texts if at.startswith(day)]
            found.append({
                "id": f"day-{day}",
                "bars": [[f"bar {what}{' crew' if manning == 'crew' else ''}", x, width]
                         for x, width, (_, _, what, manning) in self.pieces(self.spans, day)],
                "unknown": [[x, width] for x, width, _ in self.pieces(self.gaps, day)],
                "unseen": [[x, width] for x, width, _ in self.pieces(self.unseen(), day)],
                "marks": minutes,
                "flags": [[round(100 * minute / DAY, 6), "left" if minute > 1380 else "right"] for minute in minutes],
                "labels": labels,
                "sum": "" if columns[3] == "0:00" else columns[3],
            })
        return found

    def table(self, language: str) -> list[Texts]:
        """The rows of the table of days, one for those that haven't come yet, and that of the month."""
        def cells(columns: Sequence[str]) -> Texts:
            """The cells of a row."""
            return ["–" if column == "0:00" else column for column in columns]

        rows = [[day_text(language, instant(line[:10])), *cells(line[14:].split())] for line in self.days if line not in self.later]
        if self.later:
            days = [instant(line[:10]) for line in (self.later[0], self.later[-1])]
            name = day_text(language, days[1]) if len(self.later) == 1 else \
                f"{short_day(language, days[0])} {OTHERS[language]['to']} {day_text(language, days[1])}"
            rows.append([f"{name}: {OTHERS[language]['not yet']}", *cells(["0:00"] * 5), f"{24 * len(self.later)}:00"])
        total = next(line for line in self.sheet if line.startswith("TOTAL "))
        return [*rows, [OTHERS[language]["month"], *cells(total.split()[1:])]]
