"""What a refusal of a trial file means, in plain words; the numbers are those of the README."""

MEANINGS = {
    1: "The file is empty, is cut off within a word, or is longer than any trial: it is no trial file.",
    2: "A word of the file is missing, or one of another kind stands in its place.",
    3: "The level is no fraction between nothing and the whole.",
    4: "The shape of the trial is wrong: too few or too many offers or pairs, or a tolerance k out of its range or above "
       "the offers; or bits that have to be zero are not.",
    5: "The code of an offer has more digits than are printed, or is printed with too many digits or with none.",
    6: "Two offers have the same number. An offer is known by its number, and zeros printed before it do not make it "
       "another offer.",
    7: "A figure is lower than a figure may be.",
    8: "The word that ends the file counts wrongly, or something stands after the end.",
    15: "There are too few or too many shops, or none of them is treated, or all are.",
}
