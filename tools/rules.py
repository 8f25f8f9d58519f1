"""All rules of docs/RULES.md together, as a value.

RULES are the rules as they stand there; `RULES.general` and `RULES.framed` are the general book and the frame layer over it.
"""
from books import FrameLayer, GeneralBook
from faces import Faces, Question
from formula import rule
from loads import Combinations
from rebar import BarMarks, Grades, Steel


@rule
class Rules:
    marks: BarMarks = BarMarks()
    grades: Grades = Grades()
    combinations: Combinations = Combinations()
    faces: Faces = Faces()
    general_book: GeneralBook = GeneralBook()
    frame_layer: FrameLayer = FrameLayer()
    steel_of_cage: Steel = Steel()
    passes: int = 0

    def actions(self, beam):
        return self.combinations.actions(beam.loads)

    def question(self, beam, cage):
        return Question(beam, cage, self.actions(beam), self.grades.of(beam), self.marks, self.faces)

    def tests(self, beam, cage):
        """All tests of the frame layer over the general book, in their order."""
        question = self.question(beam, cage)
        yield from self.general_book.tests(question)
        yield from self.frame_layer.tests(question)

    def first_broken(self, tests):
        return next((article for article, left, right in tests if left > right), self.passes)

    def general(self, beam, cage):
        """The general book's answer."""
        return self.first_broken(self.general_book.tests(self.question(beam, cage)))

    def framed(self, beam, cage):
        """The answer of the frame layer over the general book."""
        return self.first_broken(self.tests(beam, cage))

    def steel(self, beam, cage):
        return self.steel_of_cage.of(beam, cage, self.marks)


RULES = Rules()
