"""What the test of js_tests is asked, and what it has to answer."""
from dataclasses import dataclass, field

GROUP, RECORD, WORD = "\x1d", "\x1e", "\x1f"


@dataclass
class Question:
    """The words of a question, and its answer.

    A call that allocates answers `refused` where it finds no memory; the allocations of one that is `in_turn` are
    refused one after the other. A quiet call doesn't allocate.
    """

    words: tuple
    answer: str
    refused: str = "Memory"
    in_turn: bool = False
    is_quiet: bool = False


@dataclass
class Table:
    """Questions over the documents of one bundle.

    Where a call on the bundle is marked, its allocations are refused in turn; what comes back is then finished, and the
    questions are answered all the same.
    """

    name: str
    questions: list
    documents: dict = field(default_factory=dict)
    marked: str = "none"

    def given(self, questions):
        """Standard input that asks some of the questions."""
        documents = RECORD.join(WORD.join(it) for it in self.documents.items())
        return (documents + GROUP + RECORD.join(WORD.join(it.words) for it in questions)).encode()


def answers(questions):
    """What the test writes for these questions."""
    return "".join(it.answer + RECORD for it in questions)


def in_turn(*words, answer, refused="Memory"):
    """A call that allocates, each of whose allocations is refused in turn."""
    return Question(words, answer, refused, in_turn=True)


def quiet(*words, answer):
    """A call that doesn't allocate."""
    return Question(words, answer, is_quiet=True)
