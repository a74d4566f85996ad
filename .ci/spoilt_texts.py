"""Texts of programs with words left out, exchanged, or put in from others: for `.ci/language`."""

import re

WORDS = re.compile(r"\s+|[A-Za-z_]\w*|\d+|\{=|=\}|->|.", re.S)
LONGEST = 2500
# What a terminal obeys, or turns round.
OBEYED = ["\x1b[31m", "\x00", "\x9b2J", "\u202e"]


class Spoiler:
    """Draws spoilt forms of these texts."""

    def __init__(self, texts):
        self.texts = [WORDS.findall(it) for it in texts if len(it) < LONGEST]
        self.words = sorted({word for it in self.texts for word in it})

    def spoilt(self, dice):
        words = list(dice.choice(self.texts))
        for _ in range(dice.choice([1, 1, 1, 2, 3])):
            place, other = (dice.randrange(len(words)) for _ in range(2))
            kind = dice.random()
            if dice.random() < 0.05:
                words.insert(place, dice.choice(OBEYED))
            elif kind < 0.35 and words[1:]:
                del words[place]
            elif kind < 0.6:
                words[place] = dice.choice(self.words)
            elif kind < 0.8:
                words.insert(place, dice.choice(self.words))
            elif kind < 0.9:
                words[place], words[other] = words[other], words[place]
            else:
                words[place:place] = words[place:place + dice.randrange(30)]
        return "".join(words)
