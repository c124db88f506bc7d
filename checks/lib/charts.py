"""What is fixed of a chart, however it looks: the title, and each day's bars, shades and marks."""
import re
import xml.etree.ElementTree

SVG = "{http://www.w3.org/2000/svg}"
ACTIVITIES = {"rest", "available", "work", "drive"}


def title_of(element: xml.etree.ElementTree.Element) -> str:
    """The text of an element's title."""
    return element.findtext(f"{SVG}title", "")


def shape_lines(day: xml.etree.ElementTree.Element) -> list[str]:
    """The lines of a day's bars, then those of its shades and its marks. The minutes are those of the day."""
    bars, shades, marks = [], [], []
    for element in day:
        kind = element.get("class", "")
        place = f"{element.get('x')} {element.get('width')}"
        if element.tag == f"{SVG}rect" and kind.split(" ")[0] in ACTIVITIES:
            bars.append(f"{kind} {place} {title_of(element)}")
        elif element.tag == f"{SVG}rect" and kind == "unseen":
            shades.append(f"unseen {place}")
        elif element.tag == f"{SVG}g" and kind == "breach":
            start = re.match(r"M(\d+) ", element.find(f"{SVG}path").get("d"))
            marks.append(f"breach {start[1]} {title_of(element)}")
    return bars + shades + marks


def lines_of(chart: bytes) -> str:
    """The lines of a chart: its title, each day's date, and the shapes of the day."""
    root = xml.etree.ElementTree.fromstring(chart)
    lines = [title_of(root)]
    for day in root.iter(f"{SVG}g"):
        if day.get("class") == "day":
            lines += [day.get("id"), *shape_lines(day)]
    return "".join(line + "\n" for line in lines)
