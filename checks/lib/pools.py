"""Asks questions in processes side by side."""
import multiprocessing
from collections.abc import Iterable, Sequence
from typing import Any

from lib.counting import Comparison, Comparisons


def of_question(question: Sequence[Any]) -> list[Comparison]:
    """The comparisons of a question: a function and what it is given."""
    function, *given = question
    return list(function(*given))


def of_questions(questions: Iterable[Sequence[Any]], processes: int) -> Comparisons:
    """The comparisons of questions, in their order."""
    with multiprocessing.Pool(processes) as pool:
        for found in pool.imap(of_question, questions):
            yield from found
        pool.close()
        pool.join()
