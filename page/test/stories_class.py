"""The stories of the scenes about class mode."""
from stories_play import ASKED, fixed

PLAIN = ".l./.../.C./.L. - -"


def lesson(at):
    """Class mode: the board as high as the window, the sentence below, and what stands beside it."""
    at.table(PLAIN, tell=False)
    at.key("c", tell="it begins")
    at.play("Cb2-b3")
    at.says()
    at.press("hide")
    at.press("hide", tell=False)
    at.language("ja")
    at.language("kana")
    at.language("en", tell=False)
    at.press("undo", tell=False)
    at.click("b1")
    at.key("Escape")
    at.key("Escape", tell="Escape leaves it")
    at.js("scrollTo(0, 300)")
    at.press("lesson", tell="by its button, from further down")
    at.press("lesson-end", tell="and left, where it was")
    at.press("lesson", tell=False)
    at.key("e", tell="setting up leaves it")
    at.key("c", tell="and it can't begin meanwhile")
    at.press("edit", tell=False)
    at.press("lesson", tell=False)
    at.give("cut.db", tell="a file that is refused")
    at.key("c", tell="by the key")


def lesson_ink(at):
    """Arrows and circles in class mode, by the right button and by the pen."""
    at.table(PLAIN, tell=False)
    at.stroke("a1", "b2", tell="nothing is drawn without class mode")
    at.press("lesson", tell=False)
    at.stroke("a1", "c3")
    at.stroke("b4", "b4")
    at.press("flip")
    at.press("flip", tell=False)
    at.stroke("a1", "c3", tell="the same once more")
    at.press("pen")
    at.stroke("b1", "a2", "left")
    at.stroke("c1", "c1", "left")
    at.stroke("c1", "c3", "left", tell=False)
    at.press("wipe")
    at.stroke("c1", "c3", "left", tell=False)
    at.press("pen", tell="the pen is put away")
    at.stroke("b1", "a2", "left", tell="a move wipes")
    at.stroke("a1", "c3", tell=False)
    at.press("pen", tell=False)
    at.press("lesson-end", tell="it is left")
    at.press("lesson", tell="and begun again")


def lesson_exercise(at):
    """An exercise and practice in class mode."""
    at.table(PLAIN, tell=False)
    at.choose("speed", "fast", tell=False)
    at.press("lesson", tell=False)
    at.run(fixed("..l/.../L../... - c", "La2-a3"), tell=False)
    at.choose("exercise-length", "3", tell=False)
    at.press("draw", until=ASKED, tell="an exercise")
    at.click("a2", tell=False)
    at.click("a1", tell="a wrong answer")
    at.click("a2", tell=False)
    at.click("a3", tell="the right one")
    at.press("next")
    at.enter(PLAIN, tell=False)
    at.press("practise", tell="practice")
    at.click("b1", tell=False)
    at.click("a2", tell=False)
    at.later(tell="the page answers")
    at.press("practise", tell=False)
    at.enter(PLAIN, tell=False)
    at.press("practise", tell=False)
    at.click("b2", tell=False)
    at.click("b3", tell="the win is lost")
    at.enter(".../.../.../L.l - c", tell="a lost position")
    at.press("practise", tell="is refused")


def lesson_phone(at):
    """Class mode on a phone, upright and lying; on a tablet."""
    at.table(PLAIN, tell=False, size=(360, 740), touch=True)
    at.press("lesson", tell="upright")
    at.press("pen", tell=False)
    at.touch("b1", "b3", tell="a finger draws with the pen")
    at.touch("a4")
    at.press("pen", tell=False)
    at.touch("b1", tell=False)
    at.touch("c2", tell="and moves without it")
    at.size(740, 360, True)
    at.size(768, 1024, True)
    at.size(1920, 1080, tell="on a large screen")
    at.size(320, 568, True)
    at.language("kana")


STORIES = {it.__name__: it for it in (lesson, lesson_ink, lesson_exercise, lesson_phone)}
