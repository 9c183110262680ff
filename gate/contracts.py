"""The public functions of a source file, with their contracts. Read as text, not as types."""
import re

HEAD = re.compile(r'\bpub\s+(?:(?:const|unsafe|extern(?:\s+"[^"]*")?)\s+)*fn\s+(\w+)\s*(?:<[^>]*>)?\s*\(')
RESULT = re.compile(r'\s*->\s*(.*?)(?=\s*(?:\brequires\b|\bensures\b|\{))', re.S)
CLAUSE = re.compile(r'\s*(requires|ensures)\b([^{]*)\{')


def closed(text, at, opening, closing):
    """The offset after the bracket that closes the one at an offset."""
    depth = 0
    for i in range(at, len(text)):
        depth += (text[i] == opening) - (text[i] == closing)
        if depth == 0:
            return i + 1
    raise ValueError('a bracket is not closed')


def functions(text):
    """Name, parameters, result (None where there is none) and clauses of each public function; a clause is its kind, its name and its words."""
    text = re.sub(r'//[^\n]*', '', text)
    for head in HEAD.finditer(text):
        at = closed(text, head.end() - 1, '(', ')')
        parameters = text[head.end():at - 1]
        result = RESULT.match(text, at)
        at = result.end() if result else at
        clauses = []
        while clause := CLAUSE.match(text, at):
            at = closed(text, clause.end() - 1, '{', '}')
            clauses.append((clause.group(1), clause.group(2).strip(), text[clause.end():at - 1]))
        yield head.group(1), parameters, result and result.group(1), clauses
