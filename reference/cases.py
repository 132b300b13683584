"""The texts of cases.txt, and whether each command writes what stands there."""
import os

from commands import answer

CASES = os.path.join(os.path.dirname(os.path.realpath(__file__)), "cases.txt")


def sections():
    """The words behind each `@`, with the text below it."""
    with open(CASES, encoding="ascii") as file:
        parts = ("\n" + file.read()).split("\n@ ")[1:]
    for part in parts:
        words, _, text = (part if part.endswith("\n") else part + "\n").partition("\n")
        yield words.split(), text


def without(text, edits):
    """A text with the lines that are named taken out or exchanged."""
    lines = text.split("\n")
    for edit in reversed(edits):
        if edit.startswith("- "):
            del lines[int(edit[2:]) - 1]
        else:
            number, _, line = edit.partition(" ")
            lines[int(number) - 1] = line
    return "\n".join(lines)


def check_cases():
    """The number of cases, and a report of each that comes out otherwise."""
    texts, count, wrong = {}, 0, []
    for words, text in sections():
        if words[0] == "file":
            is_input = not words[1].endswith(".c")
            texts[words[1]] = (text.rstrip("\n") if is_input else text).encode()
            continue
        if words[0] == "bytes":
            texts[words[1]] = bytes(map(int, words[2:]))
            continue
        if words[0] == "without":
            header, *edits = text.rstrip("\n").split("\n")
            text = header + "\n" + without(texts[words[1]].decode(), edits)
            words[0] = "slice"
        count += 1
        found = answer(words, texts)
        if found != text:
            wrong.append(f"{' '.join(words)}\nwanted\n{text}found\n{found}")
    return count, wrong


if __name__ == "__main__":
    number, reports = check_cases()
    print("\n".join(reports + [f"cases {number}, wrong {len(reports)}"]))
