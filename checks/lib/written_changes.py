"""Changes of the slow programs that are written down, beside those that are made by a rule (changes.py): wrong programs that only the
cases of a few generators notice. Each says where the cases of other generators have a hole."""
import ast
import functools
import pathlib
from collections import namedtuple
from collections.abc import Iterator
from types import ModuleType, SimpleNamespace

from lib import changes, vector_sets
from slow import slow_archive

# A change: the sets whose cases may notice it, the generators whose cases alone do, the slow program, and the text that is replaced by
# another one.
Written = namedtuple("Written", "sets generators program old new")


def masked(old: str, what: str, bits: int) -> tuple[str, str]:
    """A text, and the same with a part of it that is read as if it had fewer bits."""
    return old, old.replace(what, f"({what}) % {2**bits}")


def of_reader(sets: str, generators: str, old: str, new: str) -> Written:
    """A change of the reader of cards."""
    return Written(sets.split(), generators.split(), "reader", old, new)


POINTERS = "oldest, newest, buffer = value[0] * 256 + value[1], value[2] * 256 + value[3], value[4:]"
BLOCK = "length = file[offset + 3] * 256 + file[offset + 4] if value <= len(file) else 0"
UNREDUCED = "{place if place >= lengths_before else place + n}"
KINDS_IN_ORDER = "    chosen = {\"first\": [first], \"second\": [second], \"both\": [first, second]}[part]\n"
IN_FILE_ORDER = (
    "    first, second = [(value, kind) for kind, value in zip((0, 2), (first, second))]\n"
    "    order = [kind for name, kind, _ in blocks if name == 0x0504]\n"
    "    pairs = sorted([first, second], key=lambda pair: order.index(pair[1]) if pair[1] in order else 9)\n"
    "    chosen = {\"first\": [first[0]], \"second\": [second[0]], \"both\": [value for value, _ in pairs]}[part]\n"
)

START = "    place, taken = oldest, 0\n"
EMPTY = "    if oldest == newest and number(buffer, oldest + 2) == 0:"
DATA = "    found = {kind: value for name, kind, value in reversed(blocks) if name == identifier}"

READER = [
    # A place that isn't taken modulo N.
    of_reader("chains", "after-end large many-words", "C9 record length at {place}", f"C9 record length at {UNREDUCED}"),
    of_reader("chains", "after-end large", "C11 day out of range at {place}", f"C11 day out of range at {UNREDUCED}"),
    of_reader("chains", "after-end large", "C12 word minute at {word_place(place, i) % n}", "C12 word minute at {word_place(place, i)}"),
    of_reader("chains", "after-end large", "C13 word order at {word_place(place, i) % n}", "C13 word order at {word_place(place, i)}"),
    # Numbers of two bytes of which the upper bits are lost.
    *(of_reader("chains", "large many-words", *masked(POINTERS, "value[0] * 256 + value[1]", bits)) for bits in range(10, 16)),
    *(of_reader("chains", "large many-words", *masked(POINTERS, "value[2] * 256 + value[3]", bits)) for bits in range(10, 16)),
    *(of_reader("chains", "large many-words", *masked("length = number(buffer, place + 2)\n", "number(buffer, place + 2)", bits))
      for bits in range(10, 16)),
    *(of_reader("files", "block", *masked(BLOCK, "file[offset + 3] * 256 + file[offset + 4]", bits)) for bits in range(9, 16)),
    # Buffers and records that are too large for a table.
    of_reader("chains", "large many-words", "    if len(value) < 16:", "    if len(value) < 16 or len(value) > 13_776:"),
    of_reader("chains", "many-words", "for i in range((length - 12) // 2)]", "for i in range((length - 12) // 2)][:1439]"),
    of_reader("chains", "many-words", "for i in range((length - 12) // 2)]", "for i in range((length - 12) // 2)][:1440]"),
    of_reader("files", "block", "    while offset < len(file):", "    while offset < min(len(file), 65_536):"),
    # The last block.
    of_reader("files", "block", "        if value + length > len(file):", "        if value + length > len(file) or value == len(file):"),
    of_reader("files", "in-file-order", KINDS_IN_ORDER, IN_FILE_ORDER),
    # Several last words of one minute.
    of_reader("words", "at-once", "begun == len(words) - 1):",
              "begun == len(words) - 1 and (len(words) < 3 or words[-3] % 2048 < words[-1] % 2048)):"),
    # Many records, lengths whose sum has too many bits, and a newest record that isn't of the last day.
    *(of_reader("chains", "many-records", f"{START}    while True:", f"{START}    for _ in range({most}):") for most in (16, 32, 64)),
    *(of_reader("chains", "many-records", *masked("    if lengths_before + length > n:", "lengths_before + length", bits))
      for bits in (15, 16)),
    of_reader("chains", "sequence contradiction", "not (place == newest and begun == len(words) - 1):",
              "not (place == newest and begun == len(words) - 1 and day >= max((minute // 1440 for minute, _ in pairs), default=0)):"),
    # A buffer without records.
    of_reader("chains", "pointers", EMPTY, EMPTY.replace("== 0:", "< 12:")),
    of_reader("chains", "pointers", EMPTY, EMPTY.replace("== 0:", "== number(buffer, oldest) == 0:")),
    # Blocks that aren't read.
    of_reader("files", "generations", DATA,
              DATA.replace("{kind:", "{kind & 2:").replace("== identifier}", "== identifier and kind % 2 < 1}")),
    of_reader("files", "generations", DATA, DATA.replace("== identifier}", "% 256 == identifier % 256}")),
    of_reader("files", "generations", DATA, DATA.replace("if name ==", "if name % 32_768 ==")),
    of_reader("files", "repeated", "        if identifier in (0x0504, 0x0520) and", "        if 0x0504 <= identifier <= 0x0520 and"),
    of_reader("files", "block", "        offset = value + length\n",
              "        offset = value + length if blocks[-1] != (0, 0, b\"\") else len(file)\n"),
    of_reader("files", "holder", "    if len(holders) == 2:", "    if len({holder.lower() for holder in holders}) == 2:"),
    # Contradictions that are looked for in a generation, before the other one is read.
    of_reader("files", "contradicting", "    return [pair for value in values for pair in pairs_of_value(value)]",
              "    return [pair for value in values for pair in map_of(pairs_of_value(value)).items()]"),
]

RULES = [
    *(Written(["timelines"], ["B1"], "rules", "        for part in runs\n    )",
              f"        for part in [one for one in runs if is_before(one, run)][-{count}:]\n    )") for count in (2, 3, 4)),
    Written(["timelines"], ["equal", "several"], "rules",
            "        if longer_than_earlier and as_long_as_later:\n            return run\n    return None",
            "        del longer_than_earlier, as_long_as_later\n"
            "    return max(candidates, key=lambda run: (minutes_before(horizon, run), run.start), default=None)"),
    *(Written(["timelines"], ["apart", "several", "at-once"], "rules", "can_pay(runs, horizon, debts, debt, run)]",
              f"can_pay(runs, horizon, [one for one in debts if one.week > week - {weeks}], debt, run)]") for weeks in (1, 2, 3)),
]


def of_csv(generators: str, old: str, new: str) -> Written:
    """A change of the reader of CSV."""
    return Written(["csv"], generators.split(), "csv", old, new)


DAY = "        day = date.fromisoformat(text.decode())\n"
READ = "    return number if number in slow_reader.READ_DAYS else None"
TIME = "([01][0-9]|2[0-3]):([0-5][0-9])\", text"
ROW = "            found.append(fields)"
WITHOUT_MARK = "    text = text.removeprefix(MARK)\n"
PLAIN = "    return is_text(rb'[^\\x00-\\x1f\\x7f,\"]*', text)"
KEY = "rb\"[0-9A-Za-z-]{8,64}\""

CSV = [
    *(of_csv("calendar", DAY, f"        day = date.fromisoformat(text.decode().replace('-{month:02}-31', '-{month:02}-30'))\n")
      for month in (4, 6, 9, 11)),
    of_csv("calendar", DAY, "        day = date.fromisoformat(text.decode().replace('2028-02-29', '2028-02-30'))\n"),
    of_csv("letters", "        text.decode()\n", "        text.decode(errors=\"surrogatepass\")\n"),
    of_csv("letters", "    author, note = fields[3:] or [OFFICE, b\"\"]",
           "    author, note = [*fields[3:4], *(field.strip() for field in fields[4:])] or [OFFICE, b\"\"]"),
    of_csv("last-field", "            fields, place = record_from(text, place)\n            found.append(fields)",
           "            fields, place = record_from(text, place)\n"
           "            if fields != [b\"\"] or place < len(text):\n                found.append(fields)"),
    *(of_csv("key", "[0-9A-Za-z-]{8,64}", f"[{letters}-]{{8,64}}") for letters in ("0-9A-Ya-z", "0-9B-Za-z", "0-9A-Za-y")),
    # Days and times.
    *(of_csv("leap-day", READ, READ.replace(" else", f" and text != b\"{year}-02-29\" else")) for year in (2008, 2068)),
    of_csv("leap-day", DAY, DAY.replace(".decode()", ".decode().replace(\"-12-00\", \"-12-01\")")),
    of_csv("leap-day", TIME, TIME.replace("\"", "Z?\"")),
    # What some readers of CSV skip, and rows that are counted in one digit.
    of_csv("dialect", ROW, "            if fields[0][:1] != b\"#\":\n                found.append(fields)"),
    of_csv("dialect", WITHOUT_MARK, WITHOUT_MARK + "    text = text.removesuffix(b\"\\x1a\")\n"),
    of_csv("dialect", WITHOUT_MARK, WITHOUT_MARK + "    text = text.removeprefix(b\"sep=,\\n\")\n"),
    of_csv("dialect", "    if activity in LEFT_OUT:", "    if activity.lower() in LEFT_OUT:"),
    of_csv("dialect", "    if start >= past or start < before:",
           "    if start >= past or start < before and activity in slow_reader.ACTIVITIES and past - start <= LONGEST:"),
    of_csv("many-rows", "        found.append(entry_of(number,", "        found.append(entry_of(number % 10,"),
    # Texts that are refused or changed.
    of_csv("odd", PLAIN, PLAIN.replace("text)", "text) and b\"<\" not in text")),
    of_csv("odd", PLAIN, PLAIN.replace("text)", "text.replace(b\"\\x1b\", b\"\"))")),
    of_csv("odd", PLAIN, PLAIN.replace("text)", "text.replace(b\"\\r\", b\"\"))")),
    of_csv("odd", PLAIN, PLAIN.replace("text)", "text) and \"\\u202e\" not in text.decode()")),
    of_csv("odd", "    return re.fullmatch(pattern, text) is not None", "    return re.match(pattern + rb\"$\", text) is not None"),
    of_csv("odd", KEY, "rb\"[A-Za-z-][0-9A-Za-z-]{7,63}\""),
]


def of_http(generators: str, program: str, old: str, new: str) -> Written:
    """A change that requests notice."""
    return Written(["http"], generators.split(), program, old, new)


S1 = "        if driver.number in self.drivers:\n            raise Refusal(\"S1\")\n"
S2 = "        if any(other.key == driver.key for other in self.drivers.values()):\n            raise Refusal(\"S2\")\n"
S3 = "        if any(other.holder == driver.holder for other in self.drivers.values()):\n            raise Refusal(\"S3\")\n"
S9 = "        check_monday(driver.base)\n"
IN_ORDER = S1 + S2 + S3 + S9
OTHER_ORDERS = [
    S2 + S1 + S3 + S9, S1 + S3 + S2 + S9, S1 + S2 + S9 + S3, S3 + S1 + S2 + S9, S9 + S1 + S2 + S3, S1 + S9 + S2 + S3,
]
STANDING = "    return \"late\" if deadline <= horizon else \"open\""
SHAPE = "        raise slow_reader.Fault(\"Z1 not of the shape\")\n    date = date_of(*[int(part) for part in text.split(\"-\")])\n"
ALL_GIVEN = "if all(self.gives(minute, mark) for minute, mark in marks.items()):"

HTTP = [
    *(of_http("registration refusal", "archive", IN_ORDER, order) for order in OTHER_ORDERS),
    of_http("held", "archive", ALL_GIVEN, "if all(self.held().get(minute) == mark for minute, mark in marks.items()):"),
    of_http("held", "archive", ALL_GIVEN, "if not marks or any(one.file == file for one in self.downloads):"),
    of_http("held", "archive", ALL_GIVEN,
            "if any(all(one.marks.get(minute) == mark for minute, mark in marks.items()) for one in self.downloads):"),
    of_http("held", "archive", ALL_GIVEN, "if marks and all(self.gives(minute, mark) for minute, mark in marks.items()):"),
    of_http("held", "archive", "            self.check(entry.marks())\n",
            "            given = {minute: mark for one in self.downloads for minute, mark in one.marks.items()}\n"
            "            wrong = [minute for minute, mark in entry.marks().items() if given.get(minute, mark) != mark]\n"
            "            if wrong:\n                raise Refusal(f\"S6 {min(wrong)}\")\n"),
    of_http("date", "office", SHAPE, SHAPE.replace("    date =", "    if not \"2000\" <= text[:4] <= \"2099\":\n"
                                                     "        raise slow_reader.Fault(\"Z3 out of range\")\n    date =")),
    of_http("date", "office", "    if not 2000 <= year <= 2099:", "    if not 2000 <= year or text > \"2099-11\":"),
    of_http("date", "office", "    if not 1 <= month <= 12:", "    if not 1 <= month <= 12 and 2000 <= year <= 2099:"),
    of_http("report", "office", STANDING, STANDING.replace("<=", "<")),
    of_http("report", "office", STANDING, "    return \"open\""),
    of_http("report", "office", STANDING, "    return \"late\""),
    of_http("report", "office", "[breach for breach in breaches if breach[1] in minutes])", "breaches)"),
    of_http("report", "office", "[breach for breach in breaches if breach[1] in minutes])",
            "[breach for breach in breaches if minutes.start <= breach[1] <= minutes.stop])"),
    of_http("report", "office", "    return \"crew\" if manning == \"crew\" else activity", "    return activity"),
    of_http("report", "office",
            "    runs = slow_reader.runs((minute, held[minute]) for minute in month_minutes(month) if minute in held)\n    rows",
            "    minutes = month_minutes(month)\n    runs = [run for run in slow_reader.runs(held.items()) "
            "if run[0] < minutes.stop and minutes.start < run[1]]\n    rows"),
    of_http("version", "server", "        for byte in b\" HTTP/1.\":\n            self.take([byte])\n        self.take(b\"01\")\n",
            "        for byte in b\" HTTP/\":\n            self.take([byte])\n        major = self.next()\n        self.take(b\"123\")\n"
            "        self.take(b\".\")\n        self.take(b\"01\" if major == 0x31 else b\"0\")\n"),
    of_http("body-first", "server", "        words = self.command(head)\n        return words, body_length(head, words[0])",
            "        words = self.command(head)\n"
            "        is_wrong = any(re.fullmatch(\"0.*|[0-9]{7,}|whole\", word) for word in words[1:])\n"
            "        if is_wrong and words[0] in WITH_INPUT and not head.values(b\"content-length\"):\n            raise Refused(400)\n"
            "        return words, body_length(head, words[0])"),
]
HEAD_END = "        while self.next() not in LINE_END_BYTES:\n            self.field()\n"
PATH = "form_of(head.target.decode())"
LENGTH_OF = "    length = int(lengths[0]) if lengths else 0"
NUMBER = "re.fullmatch(\"[1-9][0-9]{0,6}\", text)"

HTTP += [
    # What other servers read, skip or refuse.
    *(of_http("strict", "server", PATH, PATH.replace("decode()", f"decode(){more}"))
      for more in (".split(\"#\")[0]", ".replace(\"/./\", \"/\")", ".removeprefix(\"http://localhost\")", ".replace(\"\\\\\", \"/\")")),
    of_http("strict", "server", HEAD_END, HEAD_END.replace(
        "            self.field()", "            if self.fields and self.next() in b\" \":\n                self.run(VALUE_BYTES)\n"
        "                self.line_end()\n                continue\n            self.field()")),
    of_http("strict", "server", "            self.take([byte])\n", "            self.take([byte, *bytes([byte]).lower()])\n"),
    of_http("strict", "server", "        self.take(b\" \")\n", "        self.take(b\" \\t\")\n"),
    *(of_http("strict", "server", LENGTH_OF, f"    length = int(lengths[0]) % 2**{bits} if lengths else 0") for bits in (31, 32)),
    of_http("strict", "server", "            if keys == [driver.key.encode()]:",
            "            if [key.lower() for key in keys] == [driver.key.encode()]:"),
    of_http("strict", "office", NUMBER, NUMBER.replace("[0-9]", "\\\\d")),
    # Contradictions between card files, and in several rows; numbers after a withdrawal.
    of_http("held", "archive", "download.marks.get(minute) == mark", "minute in download.marks"),
    of_http("held", "archive", "if held.get(minute, mark) != mark]", "if held.get(minute, mark)[0] != mark[0]]"),
    of_http("held", "archive", "        for entry in sorted(batch, key=lambda entry: entry.start):",
            "        for entry in sorted(batch, key=lambda entry: -entry.start):"),
    of_http("held", "archive", "        first = len(self.entries) + 1\n",
            "        first = sum(not entry.is_withdrawn for entry in self.entries) + 1\n"),
]
ENTRY_LINES = [
    of_http("report range", "office",
            "return \"\".join(entry_line(place, entry) for place, entry in enumerate(self.driver(number).entries, 1))",
            "return \"\".join(entry_line(place, entry) for place, entry in enumerate(self.driver(number).entries, 1) "
            "if not entry.is_withdrawn)"),
]

WRITTEN = [*READER, *RULES, *CSV, *HTTP, *ENTRY_LINES]


def module_named(program: str) -> ModuleType:
    """The module of a slow program."""
    return slow_archive if program == "archive" else getattr(vector_sets.SLOW, program)


@functools.cache
def functions_of(program: str) -> list[tuple[str, str]]:
    """The functions of a slow program, each with its source."""
    source = pathlib.Path(str(module_named(program).__file__)).read_text(encoding="utf-8")
    found = []
    for top in ast.parse(source).body:
        for name, node in changes.functions_in(top):
            found.append((name, "\n".join(source.split("\n")[node.lineno - 1 : node.end_lineno])))
    return found


def function_of(written: Written) -> str:
    """The function in which a change is."""
    found = [name for name, source in functions_of(written.program) if written.old.strip("\n") in source]
    if len(found) != 1:
        raise ValueError(f"{len(found)} functions have {written.old!r}")
    return found[0]


def slow_with(written: Written) -> SimpleNamespace:
    """The slow programs, one of which is changed."""
    changed = changes.module_with(module_named(written.program), [(written.old, written.new)])
    if written.program != "archive":
        return vector_sets.with_module(written.program, changed)
    office = changes.module_with(vector_sets.SLOW.office, [])
    vars(office).update(slow_archive=changed, Refusal=changed.Refusal)
    return vector_sets.with_module("office", office)


def all_of(program: str) -> Iterator[Written]:
    """The changes of a slow program."""
    return (written for written in WRITTEN if written.program == program)
