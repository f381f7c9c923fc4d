"""The second reader of questions: solutions by trying all, ties, failures, words, and what it takes for an answer."""

import dataclasses
import random

import pytest

from bonsainet.ask.program import TOP, Answer
from hostile import asked_files, asked_run, asked_shut
from hostile.asked_run import text_of
from hostile.judge import answers, asked, asked_questions, asked_words, questions, rests
from hostile.judge.rests import Down
from hostile.makers import asked as maker
from hostile.makers import disputes, shut

NOTHING = Down()


def network(name, bad=False, both=True):
    """A gadget around r0, whose other routers prefer one another."""
    pairs = disputes.GADGETS[name]
    count = 1 + max(max(pair) for pair in pairs)
    one = disputes.Shape(count, list(pairs), {0: [("10.0.0.0", 24)]})
    lines = []
    for place in range(count):
        around = [other for _, other, _, _ in disputes.ports(one, place) if other != 0 and place != 0]
        prefer = around if both else [other for other in around if (place, other) in pairs]
        lines += disputes._plain(one, place, prefer, bad)
    return answers.read("".join(f"{line}\n" for line in lines).encode())


@pytest.mark.parametrize(
    "name, bad, both, count",
    [("disagree", False, True, 2), ("two pairs", False, True, 4), ("bad gadget", True, False, 0)],
)
def test_gadgets_have_as_many_solutions_as_griffin_shepherd_and_wilfong_say(name, bad, both, count):
    left, found = questions.solutions(network(name, bad, both), 0, NOTHING)
    assert len(found) == count
    assert all(rests.keys(left, one) != rests.keys(left, other) for one, other in zip(found, found[1:]))


def answer_by(reader, net, words, status, out):
    """Whether the answer is taken by what a reader finds."""
    try:
        asked.judge(net, asked_words.call_of(net, words), status, out, reader)
    except asked.Differs:
        return False
    return True


def answer(net, words, status, out):
    """Whether the answer is taken by what exhaustive search finds."""
    return answer_by(questions, net, words, status, out)


def test_an_answer_is_taken_by_its_verdict_status_and_counterexample():
    net = network("disagree")
    assert answer(net, ["1", "count"], 0, "class 1 solutions 2\n")
    assert not answer(net, ["1", "count"], 0, "class 1 solutions 1\n")
    assert answer(net, ["1", "route", "*"], 0, "class 1 yes\n")
    assert not answer(net, ["1", "route", "*"], 8, "class 1 yes\n")
    assert not answer(net, ["1", "route", "*"], 0, "class 1 none\n")
    labels = [
        "r0 bgp 100 path comms\n",
        "r1 bgp 200 path 65003 65001 comms 9:9\n",
        "r2 bgp 100 path 65001 comms\n",
    ]
    assert answer(net, ["1", "hops", "1", "r1"], 8, "class 1 no\n" + "".join(labels))
    other = ["r0 bgp 100 path comms\n", "r1 bgp 100 path 65001 comms\n", "r2 bgp 200 path 65002 65001 comms 9:9\n"]
    assert not answer(net, ["1", "hops", "1", "r1"], 8, "class 1 no\n" + "".join(other))
    assert not answer(net, ["1", "hops", "1", "r1"], 8, "class 1 no\n" + "".join(labels[:2]))


def test_ends_of_a_chain_belong_to_it():
    net = network("disagree")
    assert answer(net, ["1", "through", "r0", "*"], 0, "class 1 yes\n")
    assert answer(net, ["1", "avoids", "r1", "r0"], 0, "class 1 yes\n")
    verdict = questions.verdict(net, 0, asked_words.call_of(net, ["1", "avoids", "r1", "r1"]).question, NOTHING)
    assert verdict.word == "no"


def test_failures_are_counted_and_named():
    net = network("disagree")
    lines = "class 1 yes\nrouter r0 no\nclass 1 failing 1 of 3\n"
    assert answer(net, ["1", "failing", "routers", "route", "*"], 8, lines)
    assert not answer(net, ["1", "failing", "routers", "route", "*"], 8, lines.replace("1 of 3", "1 of 2"))
    assert answer(net, ["1", "failing", "links", "route", "*"], 0, "class 1 yes\nclass 1 failing 0 of 3\n")
    assert answer(net, ["1", "without", "r1:r0,r1:r2", "route", "r2"], 0, "class 1 yes\n")


@pytest.mark.parametrize(
    "words",
    [
        [],
        ["1"],
        ["1", "route"],
        ["1", "route", "r1,r1"],
        ["1", "route", "r1,"],
        ["2-1", "count"],
        ["0-1", "count"],
        ["1", "without", "r1:r1", "count"],
        ["1", "without", "r1:r2,r2:r1", "count"],
        ["1", "failing", "count"],
        ["1", "hops", "1000000000", "*"],
        ["1", "carries", "no-export", "*"],
    ],
)
def test_words_of_no_form(words):
    with pytest.raises(asked_words.NoForm):
        asked_words.call_of(network("disagree"), words)


@pytest.mark.parametrize(
    "words, why",
    [
        (["2", "route", "r9"], "NoClass 2"),
        (["1-2", "count"], "NoClass 1-2"),
        (["10.9.9.9", "count"], "NoClass 10.9.9.9"),
        (["1", "without", "r8", "through", "r7", "r6"], "UnknownRouter r6"),
        (["1", "without", "r8", "through", "r7", "*"], "UnknownRouter r7"),
        (["1", "without", "r8:r1", "count"], "UnknownRouter r8"),
    ],
)
def test_refusals_come_in_order(words, why):
    with pytest.raises(asked_words.Unanswered) as refused:
        asked_words.call_of(network("disagree"), words)
    assert str(refused.value) == why


def test_a_pair_without_a_link_is_refused_as_it_was_given():
    with pytest.raises(asked_words.Unanswered, match="NoLink r4:r1"):
        asked_words.call_of(network("two pairs"), ["1", "without", "r4:r1", "count"])


def test_makers_give_texts_and_words_that_are_mostly_right():
    good = 0
    for seed in range(40):
        chance = random.Random(seed)
        net = answers.read(disputes.text(chance).encode())
        if isinstance(net, answers.Expected):
            continue
        try:
            asked_words.call_of(net, maker.Maker(chance, net).words())
            good += 1
        except (asked_words.NoForm, asked_words.Unanswered):
            pass
    assert good > 20


def test_a_loss_is_what_the_text_says_in_which_the_session_is_shut_or_the_interface_is_passive():
    """`without A:B` against the text with `neighbor .. shutdown` (BGP) or `passive-interface` (OSPF)."""
    seen = {"bgp": 0, "ospf": 0}
    for seed in range(150):
        chance = random.Random(seed)
        text = text_of(chance)
        net = answers.read(text)
        if isinstance(net, answers.Expected) or answers.has_many_communities(net) or not net.classes:
            continue
        pair = shut.pair_to_lose(chance, net)
        if pair is None:
            continue
        less = answers.read(shut.shut(text, net, pair))
        assert not isinstance(less, answers.Expected)
        lost = [number for number, link in enumerate(net.links) if {link[0], link[1]} == set(pair)]
        assert len(less.links) == len(net.links) - len(lost) and len(less.classes) == len(net.classes)
        try:
            for number in range(len(net.classes)):
                kept = questions.keys(net, number, Down(links=frozenset(lost)))
                assert sorted(kept) == sorted(questions.keys(less, number, NOTHING))
                seen[net.protocol] += 1
        except rests.TooLarge:
            pass
    assert min(seen.values()) > 10


class Echo:
    """A program that answers a file of questions by each line's words and the text alone."""

    def __init__(self, told):
        self.told = told

    def ask(self, *words, texts):
        """An answer."""
        is_shut = "shutdown" in texts["F"].decode()
        lines = enumerate(texts["S"].decode().splitlines(), 1)
        told = [f"question {number}\n{self.told(is_shut or 'without' in line, line.split())}" for number, line in lines]
        return Answer(0, "".join(told).encode(), b"")


def a_loss():
    """A text, and a loss of it with several questions."""
    text = disputes.text(random.Random(2)).encode()
    net = answers.read(text)
    losses = (asked_shut.loss_of(random.Random(seed), text, net) for seed in range(99))
    loss = next(
        one
        for one in losses
        if len(one.questions) > 2 and not {"forwards"} & {one.questions[0][3], one.questions[-1][3]}
    )
    return text, loss


def test_a_loss_is_asked_in_two_ways():
    text, loss = a_loss()
    assert loss.shut.count(b"shutdown") >= 1 and b"without" not in loss.after
    assert [line.split() for line in loss.without.decode().splitlines()] == [*loss.questions, *loss.others]
    assert loss.others and len(loss.after.splitlines()) == len(loss.questions)
    same = Echo(lambda is_lost, words: f"class 1 {'no' if is_lost else 'yes'}\n")
    assert asked_shut.fault(loss, *asked_shut.asked(same, text, loss)) is None
    other = Echo(lambda _, words: f"class 1 {'yes' if 'without' in words else 'no'}\n")
    words, why = asked_shut.fault(loss, *asked_shut.asked(other, text, loss))
    assert words == loss.questions[0] and "as of the text that is shut" in why


def test_each_question_of_a_loss_is_compared():
    text, loss = a_loss()
    last = loss.questions[-1][3:]
    other = Echo(
        lambda _, words: "class 1 yes\n" if words[-len(last) :] != last or "without" in words else "class 1 no\n"
    )
    words, _ = asked_shut.fault(loss, *asked_shut.asked(other, text, loss))
    assert words[3:] == last
    one, _ = asked_shut.asked(other, text, loss)
    assert asked_shut.fault(loss, one, Answer(1, b"", b"refused: x\n"))


def test_the_status_of_a_loss_is_compared_where_nothing_else_is_asked():
    text, loss = a_loss()
    alone = dataclasses.replace(loss, others=[], without="\n".join(map(" ".join, loss.questions)).encode())
    one, other = asked_shut.asked(Echo(lambda *_: "class 1 no\n"), text, alone)
    assert asked_shut.fault(alone, one, other) is None
    assert asked_shut.fault(alone, one, Answer(8, other.out, b""))[1].startswith("status 8")


def test_texts_have_as_many_routers_as_asked_for():
    counts = {text_of(random.Random(seed), 3).count(b"hostname") for seed in range(80)}
    assert {2, 3} <= counts and sorted(counts)[len(counts) // 2] <= 5


def test_solutions_may_come_in_any_order():
    words = ["1", "without", "r0:r1", "forwards"]
    told = "solution 1\nr0 here\nr1 to r0\nsolution 2\nr0 here\nr1 none\n"
    turned = "solution 1\nr0 here\nr1 none\nsolution 2\nr0 here\nr1 to r0\n"
    assert asked_shut.essence(words, told) == asked_shut.essence(words, turned)
    assert asked_shut.essence(words, told) != asked_shut.essence(words, told.replace("none", "here"))


def test_which_tie_was_met_is_free():
    words = ["1", "without", "r0:r1", "route", "*"]
    assert asked_shut.essence(words, "class 1 yes tied r1 path\n") == asked_shut.essence(words, "class 1 yes\n")
    assert asked_shut.essence(words, "class 1 no\n") != asked_shut.essence(words, "class 1 yes\n")


def test_a_run_counts_texts_by_what_they_have():
    assert [*asked_run.kinds_of(network("disagree"))] == ["bgp", "lone", "several"]
    assert [*asked_run.kinds_of(network("bad gadget", True, False))] == ["bgp", "lone", "none"]
    assert [*asked_run.kinds_of(answers.read(b"x\n"))] == ["refused"]
    kinds = {kind for seed in range(60) for kind in asked_run.kinds_of(answers.read(text_of(random.Random(seed))))}
    assert kinds >= {"bgp", "ospf", "lone", "several", "none"}


def test_a_question_of_a_file_is_a_command():
    found = asked_run.Found()
    for words in asked_run._questions_of(FILE):
        found.note(words)
    assert found.asked == 3 and found.commands == {"count": 1, "route": 1, "hops": 1}


def test_a_run_is_left_out_by_name_without_a_program(monkeypatch, capsys):
    monkeypatch.setattr(asked_run, "TOP", asked_run.TOP / "nowhere")
    assert asked_run.main(["--seconds", "1"]) == 0
    assert capsys.readouterr().out.startswith("ask: left out: the repository has no bonsai-ask")


FILE = b"! two questions\n\n1 count\n \t1  route\tr0 \r\n1 hops 0 r1"


def test_a_file_of_questions_is_answered_line_by_line_without_labels():
    net = network("disagree")
    right = "question 3\nclass 1 solutions 2\nquestion 4\nclass 1 yes\nquestion 5\nclass 1 no\n"
    asked_questions.judge(net, FILE, 8, right)
    for status, wrong in (
        (0, right),
        (8, right.replace("question 4", "question 3")),
        (8, right + "r0 none\n"),
        (8, right.partition("question 5")[0]),
    ):
        with pytest.raises(asked.Differs):
            asked_questions.judge(net, FILE, status, wrong)


@pytest.mark.parametrize(
    "line, kind",
    [
        (b"1 route", "BadForm"),
        (b" ! no comment", "BadForm"),
        (b"9 route r99", "NoClass"),
        (b"1 without r0:r9 route r99", "UnknownRouter"),
        (b"1 without r1:r0,r0:r3 route r0", "UnknownRouter"),
    ],
)
def test_the_first_fault_of_a_file_of_questions(line, kind):
    file = b"1 count\n" + line + b"\n1 frobs\n"
    with pytest.raises(asked_questions.Faulty, match=f"questions line 2: {kind}"):
        asked_questions.judge(network("disagree"), file, 0, "")
    answer = Answer(1, b"", f"refused: questions line 2: {kind}\n".encode())
    assert asked_run.fault(network("disagree"), ["questions", "S"], answer, file=file) is None
    assert asked_run.fault(network("disagree"), ["questions", "S"], Answer(0, b"", b""), file=file)


def test_words_of_no_form_have_the_usage():
    assert asked_run.fault(network("disagree"), ["1"], Answer(2, b"", f"{asked_words.USAGE}\n".encode())) is None
    assert asked_run.fault(network("disagree"), ["1"], Answer(2, b"", b"usage: x\n"))


def test_files_of_questions_are_right_and_wrong_by_turns():
    made = maker.Maker(random.Random(3), network("disagree"))
    ends = set()
    for _ in range(60):
        try:
            ends.add(min(3, len(asked_questions.calls_of(made.net, made.file()))))
        except asked_questions.Faulty as why:
            ends.add(str(why).split()[-1])
    assert {1, 2, 3, "BadForm"} <= ends


def test_a_tie_is_taken_where_a_router_may_have_two_such_offers():
    net = answers.read((TOP / "examples/inputs/asking/tags-tied.cfg").read_bytes())
    assert answer(net, ["1", "route", "far"], 0, "class 1 yes tied leaf communities\n")
    for tie in ("nobody communities", "far communities", "leaf path"):
        assert not answer(net, ["1", "route", "far"], 0, f"class 1 yes tied {tie}\n")
    assert answer(net, ["1", "failing", "links", "route", "far"], 8, failing_links(net, ""))
    assert not answer(net, ["1", "failing", "links", "route", "far"], 8, failing_links(net, " tied 1"))


def failing_links(net, tied):
    """What is said of `route far` where each single link is lost."""
    question = asked_words.call_of(net, ["1", "route", "far"]).question
    verdicts = [questions.verdict(net, 0, question, NOTHING.with_link(link)).word for link in range(len(net.links))]
    lost = [f"link {name} {word}\n" for name, word in zip(questions.link_names(net), verdicts) if word != "yes"]
    return f"class 1 yes tied leaf communities\n{''.join(lost)}class 1 failing {len(lost)} of {len(verdicts)}{tied}\n"


def test_where_no_router_has_two_such_offers_nothing_is_tied():
    net = network("disagree")
    assert not answer(net, ["1", "route", "*"], 0, "class 1 yes tied r1 path\n")
    lines = "class 1 yes\nclass 1 failing 0 of 3 tied 1\n"
    assert not answer(net, ["1", "failing", "links", "route", "*"], 0, lines)


class Ending:
    """A program that ends each call alike."""

    def __init__(self, status, line):
        self.answer = Answer(status, b"", line)

    def ask(self, *words, texts):
        """The answer."""
        return self.answer


def test_files_that_are_absent_or_too_long_have_one_end():
    """A text that is refused is refused before a second file is read."""
    net, refused = network("disagree"), answers.read(b"hostname\n")
    calls = [asked_files.call_of(random.Random(seed), b"", net) for seed in range(40)]
    told = {(call.status, call.reason) for call in calls}
    absent = (3, f"read fault: {asked_files.ABSENT}")
    assert told == {absent, (1, "refused: FileTooLong"), (1, "refused: questions FileTooLong")}
    of_second = [asked_files.call_of(random.Random(seed), b"hostname\n", refused) for seed in range(40)]
    assert all(call.reason == refused.reason for call in of_second if call.texts.get("F") == b"hostname\n")
    call = next(call for call in calls if call.status == 3)
    assert asked_files.fault(Ending(3, f"{absent[1]}\n".encode()), call) is None
    assert asked_files.fault(Ending(5, b"out of memory\n"), call) == (
        f"status 3, {absent[1]}",
        Answer(5, b"", b"out of memory\n"),
    )


def test_nobody_is_lone_where_nobody_prefers_anything():
    for seed in range(20):
        net = answers.read(disputes.even(random.Random(seed)).encode())
        assert net.classes and not any(
            questions.solutions(net, number, NOTHING)[0].lone for number in range(len(net.classes))
        )


def test_words_that_may_not_be_wrong_name_routers_that_are_there():
    """Of others some name one that is not there, are of no form, name a class that is not there, or a pair without a link."""
    net, ends = network("two pairs"), set()
    for seed in range(600):
        assert "r99" not in ",".join(maker.Maker(random.Random(seed), net).words(False))
        try:
            asked_words.call_of(net, maker.Maker(random.Random(seed), net).words())
        except asked_words.NoForm:
            ends.add("no form")
        except asked_words.Unanswered as why:
            ends.add(str(why).split()[0])
    assert ends >= {"no form", "UnknownRouter", "NoClass", "NoLink"}
