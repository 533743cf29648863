"""The grammar: the statement of a part's tokens, or error 10 where they are none. A method reads one production."""

from collections.abc import Callable
from typing import TypeVar

from model import tree
from model.refusals import Refusal
from model.tokens import END, Kind, Token

Read = TypeVar("Read")

TYPES = {"INTEGER": tree.Type.INTEGER, "INT": tree.Type.INTEGER, "BIGINT": tree.Type.BIGINT}
TRUTHS = {"TRUE": True, "FALSE": False, "UNKNOWN": None}
RELATIONS = {"=": "=", "<>": "<>", "!=": "<>", "<": "<", "<=": "<=", ">": ">", ">=": ">="}


def statement_of(tokens: list[Token]) -> tree.Statement:
    """The statement that these tokens spell."""
    parser = Parser(tokens)
    statement = parser.statement()
    if parser.token() is not END:
        raise Refusal(10)
    return statement


class Parser:
    """Reads tokens from the first on."""

    def __init__(self, tokens: list[Token]) -> None:
        self.tokens, self.at = [*tokens, END], 0

    def token(self) -> Token:
        """The next token."""
        return self.tokens[self.at]

    def is_next(self, spelling: str) -> bool:
        """Whether the next token is this word or symbol."""
        return self.tokens[self.at].value == spelling

    def eat(self, *spellings: str) -> bool:
        """Goes behind the words and symbols if they are next."""
        at = self.at
        for spelling in spellings:
            if self.tokens[at].value != spelling:
                return False
            at += 1
        self.at = at
        return True

    def expect(self, *spellings: str) -> None:
        """Goes behind the words and symbols, which have to be next."""
        if not self.eat(*spellings):
            raise Refusal(10)

    def take(self, kind: Kind) -> str | int | bytes:
        """The value of the next token, which has to be of this kind."""
        token = self.token()
        if token.kind is not kind:
            raise Refusal(10)
        self.at += 1
        return token.value

    def name(self) -> str:
        """A name: a word that isn't reserved."""
        if not self.token().is_name:
            raise Refusal(10)
        return self.take(Kind.WORD)

    def one_of(self, words: dict[str, Read]) -> Read:
        """What the next word stands for, which has to be one of these."""
        word = self.take(Kind.WORD)
        if word not in words:
            raise Refusal(10)
        return words[word]

    def listed(self, read: Callable[[], Read]) -> tuple[Read, ...]:
        """One or more, with commas between them."""
        found = [read()]
        while self.eat(","):
            found.append(read())
        return tuple(found)

    def in_parentheses(self, read: Callable[[], Read]) -> tuple[Read, ...]:
        """One or more in parentheses, with commas between them."""
        self.expect("(")
        found = self.listed(read)
        self.expect(")")
        return found

    def statement(self) -> tree.Statement:
        """The statement by its first word."""
        readers = {
            "CREATE": self.create_table,
            "DROP": self.drop_table,
            "TABLES": tree.Tables,
            "INSERT": self.insert,
            "UPDATE": self.update,
            "DELETE": self.delete,
            "SELECT": self.select,
            "STATS": self.stats,
            "REBUILD": self.rebuild,
            "LOAD": self.load,
            "SAVE": lambda: tree.Save(*self.name_and_file("TO")),
            "OPEN": lambda: tree.Open(*self.name_and_file("FROM")),
        }
        return self.one_of(readers)()

    def create_table(self) -> tree.CreateTable:
        """`CREATE TABLE name ( coldef {, coldef} )`, behind its first word."""
        self.expect("TABLE")
        return tree.CreateTable(self.name(), self.in_parentheses(self.column_def))

    def column_def(self) -> tree.ColumnDef:
        """`name (INTEGER | INT | BIGINT) [USING layout] [kind]`."""
        name, column_type = self.name(), self.one_of(TYPES)
        layout = self.layout() if self.eat("USING") else tree.Layout.V
        return tree.ColumnDef(name, column_type, layout, self.coding() or tree.Coding.OFFSET)

    def layout(self) -> tree.Layout:
        """`P | V | H | S`."""
        return self.one_of(tree.Layout.__members__)

    def coding(self) -> tree.Coding | None:
        """A kind, if one is next."""
        return next((coding for coding in tree.Coding if self.eat(coding.name)), None)

    def drop_table(self) -> tree.DropTable:
        """`DROP TABLE name`, behind its first word."""
        self.expect("TABLE")
        return tree.DropTable(self.name())

    def insert(self) -> tree.Insert:
        """`INSERT INTO name [( name {, name} )] VALUES tuple {, tuple}`, behind its first word."""
        self.expect("INTO")
        table = self.name()
        columns = self.in_parentheses(self.name) if self.is_next("(") else None
        self.expect("VALUES")
        return tree.Insert(table, columns, self.listed(lambda: self.in_parentheses(self.value)))

    def value(self) -> tree.Value:
        """A literal or NULL."""
        if self.eat("NULL"):
            return None
        sign = -1 if self.eat("-") else 1
        if sign == 1:
            self.eat("+")
        return sign * self.take(Kind.NUMBER)

    def update(self) -> tree.Update:
        """`UPDATE name SET set {, set} [WHERE cond]`, behind its first word."""
        table = self.name()
        self.expect("SET")
        return tree.Update(table, self.listed(self.set), self.where())

    def set(self) -> tuple[str, tree.Operand]:
        """`name = source`."""
        name = self.name()
        self.expect("=")
        return name, self.operand()

    def operand(self) -> tree.Operand:
        """A name, a literal or NULL."""
        return tree.Name(self.name()) if self.token().is_name else self.value()

    def where(self) -> tree.Condition | None:
        """`[WHERE cond]`."""
        return self.condition() if self.eat("WHERE") else None

    def delete(self) -> tree.Delete:
        """`DELETE FROM name [WHERE cond]`, behind its first word."""
        self.expect("FROM")
        return tree.Delete(self.name(), self.where())

    def stats(self) -> tree.Select:
        """`STATS SELECT ..`, behind its first word."""
        self.expect("SELECT")
        return self.select(counts=True)

    def select(self, counts: bool = False) -> tree.Select:
        """`SELECT items FROM name [WHERE cond] [GROUP BY name]`, behind its first word."""
        items = None if self.eat("*") else self.listed(self.item)
        self.expect("FROM")
        table, where = self.name(), self.where()
        group_by = self.name() if self.eat("GROUP", "BY") else None
        return tree.Select(table, items, where, group_by, counts)

    def item(self) -> tree.Item:
        """`name | COUNT ( * ) | function ( name )`."""
        if self.eat("COUNT", "(", "*", ")"):
            return tree.Item(None, tree.Function.COUNT)
        if self.token().is_name:
            return tree.Item(self.name())
        function = self.one_of(tree.Function.__members__)
        self.expect("(")
        column = self.name()
        self.expect(")")
        return tree.Item(column, function)

    def rebuild(self) -> tree.Rebuild:
        """`REBUILD name [( choice {, choice} )]`, behind its first word."""
        table = self.name()
        return tree.Rebuild(table, self.in_parentheses(self.choice) if self.is_next("(") else ())

    def choice(self) -> tree.Choice:
        """`name USING layout [kind]`."""
        name = self.name()
        self.expect("USING")
        return tree.Choice(name, self.layout(), self.coding())

    def load(self) -> tree.Load:
        """`LOAD name FROM text [WITH HEADER]`, behind its first word."""
        table, file = self.name_and_file("FROM")
        return tree.Load(table, file, self.eat("WITH", "HEADER"))

    def name_and_file(self, word: str) -> tuple[str, str]:
        """`name word text`."""
        name = self.name()
        self.expect(word)
        return name, self.take(Kind.TEXT).decode("utf-8")

    def condition(self) -> tree.Condition:
        """`term {OR term}`."""
        terms = [self.term()]
        while self.eat("OR"):
            terms.append(self.term())
        return terms[0] if len(terms) == 1 else tree.Or(tuple(terms))

    def term(self) -> tree.Condition:
        """`factor {AND factor}`."""
        factors = [self.factor()]
        while self.eat("AND"):
            factors.append(self.factor())
        return factors[0] if len(factors) == 1 else tree.And(tuple(factors))

    def factor(self) -> tree.Condition:
        """`[NOT] test`."""
        return tree.Not(self.test()) if self.eat("NOT") else self.test()

    def test(self) -> tree.Condition:
        """`primary [IS [NOT] truth]`."""
        condition = self.primary()
        if not self.eat("IS"):
            return condition
        is_not = self.eat("NOT")
        tested = tree.Is(condition, self.one_of(TRUTHS))
        return tree.Not(tested) if is_not else tested

    def primary(self) -> tree.Condition:
        """`( cond ) | predicate`."""
        if not self.eat("("):
            return self.predicate()
        condition = self.condition()
        self.expect(")")
        return condition

    def predicate(self) -> tree.Condition:
        """A comparison, or an operand with BETWEEN, IN or IS NULL behind it."""
        operand = self.operand()
        if self.eat("IS"):
            is_not = self.eat("NOT")
            self.expect("NULL")
            predicate = tree.IsNull(operand)
        else:
            is_not = self.eat("NOT")
            predicate = self.rest(operand, is_not)
        return tree.Not(predicate) if is_not else predicate

    def rest(self, operand: tree.Operand, is_not: bool) -> tree.Condition:
        """What follows the operand of a predicate, and the NOT if there is one."""
        if self.eat("BETWEEN"):
            low = self.operand()
            self.expect("AND")
            return tree.Between(operand, low, self.operand())
        if self.eat("IN"):
            return tree.In(operand, self.in_parentheses(self.value))
        relation = self.take(Kind.SYMBOL)
        if is_not or relation not in RELATIONS:
            raise Refusal(10)
        return tree.Comparison(operand, RELATIONS[relation], self.operand())
