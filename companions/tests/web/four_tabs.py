"""Two pairs of partners."""

from .browser import Evening, Window


def become_partners(asking: Window, asked: Window) -> None:
    asking.view("lobby")
    asking.write("partner-name", asked.name)
    asking.click("#partner-ask")
    asked.click(f'#calls [data-command="partner {asking.name}"]')
    for it, other in ((asking, asked), (asked, asking)):
        it.sees(f"Your partner is {other.name}", "#partner-state")


def four(evening: Evening) -> tuple[Window, Window, Window, Window]:
    """Ann against Ben, and Dan against Cat; Ann and Dan have White."""
    ann, ben, cat, dan = (evening.window(it) for it in ("Ann", "Ben", "Cat", "Dan"))
    become_partners(ann, cat)
    become_partners(ben, dan)
    evening.begin(ann, ben, "bughouse")
    for it in (cat, dan):
        it.until(lambda: len(it.men()) == len(it.men("partner")) == 32, "both boards")
    return ann, ben, cat, dan
