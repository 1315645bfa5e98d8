"""Chapter: a trial and its table. Pairs, coins, differences, every exchange as a row; 0042 and 42."""

from ..drawings import coin_picture
from ..markup import el, fact, para, say
from ..meanings import MEANINGS
from ..samples import sample
from ..tables import exchange_table, figures_table
from ..trials import Trial, trial_of
from ..words import words_of

WORDS = words_of("tabled")
TURNED = 5  # the row of the second picture: pairs 1 and 3 are exchanged


def picture(ident: str, title: str, name: str, pairs: int, exchanged, **parts):
    """A picture of pairs and coins over its caption, by the name of its words."""
    return el("figure", coin_picture(ident, title, WORDS[f"{name}, described"], pairs, exchanged),
              el("figcaption", say(WORDS[name], **parts)))


def pictures(name: str, trial: Trial) -> list:
    """The coins as they fell, and as they might have fallen."""
    pairs, way = trial.layout.units, trial.layout.way(TURNED)
    one, other = (fact(f"pair {j}", j) for j in way)
    return [picture("coins", "The coins as they fell", "as they fell", pairs, ()),
            picture("turned", "The coins as they might have fallen", "as they might have fallen", pairs, way, one=one,
                    other=other, row=fact(f"{name} row {TURNED}", TURNED))]


def turned_away(programs) -> list:
    """A file with 0042 and 42."""
    name, data = sample("twice.trial")
    refusal, codes = programs.trial(data), trial_of(data).codes
    one, other = (fact(f"{name} code {i}", code) for i, code in enumerate(codes))
    return [el("h3", say("{one} and {other} are one offer", one=one, other=other)), para(WORDS["twice"], other=other),
            el("pre", say("refused {number}", number=fact(f"{name} refusal", refusal.number)), class_="printed"),
            para(WORDS["why refused"], meaning=MEANINGS[refusal.number], one=one, other=other)]


def tabled(programs) -> list:
    name, data = sample("w.trial")
    trial, answer = trial_of(data), programs.trial(data)
    first, second = (fact(f"{name} code {i}", code) for i, code in enumerate(trial.codes))
    rows = fact(f"{name} rows", answer.rows)
    return [para(WORDS["trial"], offers=fact(f"{name} offers", len(trial.offers)), first=first, second=second,
                 pairs=fact(f"{name} units", trial.layout.units)),
            figures_table(name, trial, sums=False), para(WORDS["idle"]), pictures(name, trial),
            para(WORDS["table"], rows=rows, zero=fact(f"{name} row 0", 0)),
            exchange_table(name, trial, say("Every exchange of the {rows}", rows=rows)),
            para(WORDS["sums"], first=first, second=second, top=fact(f"{name} entry 0 0", trial.columns()[0][0]),
                 low=fact(f"{name} entry 0 1", trial.columns()[1][0])),
            turned_away(programs)]
