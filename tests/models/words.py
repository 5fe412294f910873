"""The model of each of the program's words: what status, standard output and standard error it must give on a text."""

from models import explain_model, slow_check, slow_play, slow_texts

MODELS = {
    "apply": slow_texts.applied,
    "check": slow_check.verdict_of,
    "play": slow_play.played,
    "play --transcript": lambda text: slow_play.played(text, True),
    "explain --data": explain_model.explained,
}
