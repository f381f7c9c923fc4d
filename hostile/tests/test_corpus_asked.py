"""Questions about imported networks: what is read from answers, and the table."""

from hostile import corpus_asked
from hostile.corpus_asked import Asked


class Told:
    """A program with fixed answers."""

    def ask(self, _file, _classes, *words, texts, seconds):
        """The answer to some words."""
        out = {
            "count": "class 1 solutions 1\nclass 2 solutions 2\n",
            "route": "class 1 yes tied r1 path\nclass 2 no\n",
            "failing": "class 1 yes\nrouter r2 no\nclass 1 failing 1 of 3\nclass 2 no\nclass 2 failing 2 of 3 tied 1\n",
        }[words[0]]
        return type("Answer", (), {"status": 8, "text": out, "reason": ""})


def test_answers_of_all_classes_are_counted():
    one = corpus_asked.asked(Told(), "a", "", 3)
    assert one == Asked("a", 3, 2, {"1": 1, "2": 1}, {"yes": 1, "no": 1}, 1, {"1 of 3": 1, "2 of 3": 1})


def test_the_table_leaves_out_networks_without_classes():
    alike = Asked("b", 4, 2, {"1": 2}, {"yes": 2}, 0, {"1 of 4": 2})
    rows = corpus_asked.table([Asked("a", 3, 0, {}, {}, 0, {}), alike]).splitlines()
    assert rows[2:] == ["| b | 4 | 2 | 1 | yes |  | 1 of 4 |", "", "1 networks have classes, 2 together."]
