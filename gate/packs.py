"""What belongs to the hydro pack, which is sold apart from the engine: files whose path names it; of a document the sections whose heading names it."""
import re

PACK = 'hydro'

# a row of a table, an entry of a list of contents, the target of a link: a line that can go alone
ALONE = re.compile(r'\||\d+\. |\[\w+\]: ')


def names(text):
    return PACK in text.lower()


def parted(text):
    """The lines of a document without the pack, and those of the pack's own sections."""
    engine, pack, inside = [], [], 0
    for line in text.splitlines():
        if heading := re.match(r'#+(?= )', line):
            level = len(heading[0])
            if not inside or level <= inside:
                inside = level if names(line) else 0
        if inside:
            pack.append(line)
        elif not (names(line) and ALONE.match(line)):
            engine.append(line)
    return engine, pack
