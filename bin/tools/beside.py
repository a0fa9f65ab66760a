"""Puts statements beside those of a source that change nothing, to see what the compiler tells there.

Each stands under `if odd(0) then`, of which the compiler knows neither way to be taken; so behind it all is known that
was known before, and any number of them can be asked at once. Its lines are lines of the text of their own."""

from typing import NamedTuple

BEFORE, BEHIND, BETWEEN = 2, 0, 1


class Question(NamedTuple):
    """The condition of a statement `if` in lines, the statement beside which it is asked, and a name for it."""

    name: object
    statement: object
    lines: list


class Piece(NamedTuple):
    """What stands at a place of the text: in order of these fields, a text and the questions in it."""

    place: int
    phase: int
    turn: tuple
    text: str
    questions: list


class Beside:
    """A source with questions in it."""

    def __init__(self, text, tokens, questions):
        self.tokens = tokens
        by_statement = {}
        for question in questions:
            by_statement.setdefault(question.statement, []).append(question)
        pieces = [piece for statement, asked in by_statement.items() for piece in self.pieces(statement, asked)]
        self.lines, self.parts, self.line = {}, [], 1
        at = 0
        for piece in sorted(pieces, key=lambda piece: piece[:3]):
            self.put(text[at : piece.place])
            self.put(piece.text)
            self.put_questions(piece.questions)
            at = piece.place
        self.put(text[at:])
        self.text = "".join(self.parts)

    def put(self, text):
        self.parts.append(text)
        self.line += text.count("\n")

    def put_questions(self, questions):
        for question in questions:
            self.put("\nif odd(0) then\n")
            for number, line in enumerate(question.lines):
                self.lines[self.line] = question.name, number
                self.put(line + "\n")
            self.put("then;\n")

    def pieces(self, statement, questions):
        """What to put round a statement. The condition of `while` knows what is known where a turn begins or where the
        last one ended; so it is asked at both of these places."""
        if statement.word == "until":
            return [Piece(self.tokens[statement.start].start, BETWEEN, (), ";", questions)]
        if statement.word != "while":
            return self.around(statement.start, statement.end, 0, questions, [])
        whole = self.around(statement.start, statement.end, 0, [], questions)
        return whole + self.around(statement.head_end + 1, statement.end, 1, questions, [])

    def around(self, first, behind, depth, before, after):
        """Puts `begin` and `end` round tokens, with questions in front of them and behind them."""
        start, end = self.tokens[first].start, self.tokens[behind - 1].end
        opening = Piece(start, BEFORE, (-end, depth), "\nbegin ", before)
        closing = Piece(end, BEHIND, (-start, -2 * depth), "; ", after)
        return [opening, closing, closing._replace(turn=(-start, 1 - 2 * depth), text=" end ", questions=[])]
