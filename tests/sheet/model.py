"""What `sheet` must print, coded apart from it: its lines, and a two-fold tree by document 01's rules. Slow, and meant to be read beside document 01."""
import re

CAPACITY = 40
LARGEST_COORDINATE = 999999
LARGEST_GRADE = 100
LARGEST_WORD = 4294967295
X, Y = 0, 1  # the axes; a mark is x, y, tag, and its grade is kept beside it

NUMBER = rb'(0|[1-9][0-9]{0,9})'
LINE = re.compile(rb'([ICL]),N,N,N,N|(D),N,N,N'.replace(b'N', NUMBER), re.DOTALL)


def key(axis, mark):
    x, y, tag = mark
    return (x, y, tag) if axis == X else (y, x, tag)


class Leaf:
    def __init__(self, mark):
        self.marks = [mark]


class Inner:
    """A node over two trees; along x with an auxiliary tree. Never changed: an update makes new nodes on its way."""

    def __init__(self, left, right, auxiliary):
        self.left, self.right, self.auxiliary = left, right, auxiliary
        self.marks = left.marks + right.marks

    def balanced(self):
        return 4 * min(len(self.left.marks), len(self.right.marks)) >= len(self.marks)


def build(axis, marks):
    """Of marks in the order of the axis."""
    if len(marks) == 1:
        return Leaf(marks[0])
    half = len(marks) // 2
    auxiliary = build(Y, sorted(marks, key=lambda m: key(Y, m))) if axis == X else None
    return Inner(build(axis, marks[:half]), build(axis, marks[half:]), auxiliary)


def mended(axis, tree):
    """With the unbalanced node nearest the root built afresh; and its weight, or 0."""
    if tree is None or isinstance(tree, Leaf):
        return tree, 0
    if not tree.balanced():
        return build(axis, tree.marks), len(tree.marks)
    left, weight = mended(axis, tree.left)
    if weight:
        return Inner(left, tree.right, tree.auxiliary), weight
    right, weight = mended(axis, tree.right)
    return (Inner(tree.left, right, tree.auxiliary), weight) if weight else (tree, 0)


def goes_left(axis, tree, mark):
    return key(axis, mark) < key(axis, tree.right.marks[0])


def put(axis, tree, mark):
    if isinstance(tree, Leaf):
        return build(axis, sorted(tree.marks + [mark], key=lambda m: key(axis, m)))
    auxiliary = inserted(Y, tree.auxiliary, mark)[0] if axis == X else None
    if goes_left(axis, tree, mark):
        return Inner(put(axis, tree.left, mark), tree.right, auxiliary)
    return Inner(tree.left, put(axis, tree.right, mark), auxiliary)


def inserted(axis, tree, mark):
    return (Leaf(mark), 0) if tree is None else mended(axis, put(axis, tree, mark))


def without(axis, tree, mark):
    if isinstance(tree, Leaf):
        return None
    auxiliary = struck(Y, tree.auxiliary, mark)[0] if axis == X else None
    left, right = tree.left, tree.right
    if goes_left(axis, tree, mark):
        left = without(axis, left, mark)
    else:
        right = without(axis, right, mark)
    if left is None or right is None:
        return left or right
    return Inner(left, right, auxiliary)


def struck(axis, tree, mark):
    return mended(axis, without(axis, tree, mark))


def held(box, mark):
    x1, x2, y1, y2 = box
    return x1 <= mark[0] < x2 and y1 <= mark[1] < y2


def visits(axis, tree, box, lists):
    """Of a count; or of a list, which walks every node beneath an auxiliary node whose cell is inside."""
    if isinstance(tree, Leaf):
        return 1
    low, high = tree.marks[0][axis], tree.marks[-1][axis]
    start, end = box[2 * axis], box[2 * axis + 1]
    if start <= low and high < end:
        if axis == X:
            return 1 + visits(Y, tree.auxiliary, box, lists)
        return 2 * len(tree.marks) - 1 if lists else 1
    if high < start or end <= low:
        return 1
    return 1 + visits(axis, tree.left, box, lists) + visits(axis, tree.right, box, lists)


class Sheet:
    def __init__(self):
        self.grades, self.tree = {}, None

    def update(self, letter, mark, grade=None):
        if max(mark[:2]) > LARGEST_COORDINATE:
            return [b'R,5']
        if letter == b'I':
            if not 1 <= grade <= LARGEST_GRADE:
                return [b'R,12']
            if mark in self.grades:
                return [b'R,8']
            if len(self.grades) == CAPACITY:
                return [b'R,7']
            self.grades[mark] = grade
            self.tree, rebuilt = inserted(X, self.tree, mark)
        else:
            if mark not in self.grades:
                return [b'R,9']
            del self.grades[mark]
            self.tree, rebuilt = struck(X, self.tree, mark)
        return [b'%s,%d,%d' % (letter, len(self.grades), rebuilt)]

    def search(self, letter, box):
        if box[0] > box[1] or box[2] > box[3]:
            return [b'R,6']
        found = sorted((*m, g) for m, g in self.grades.items() if held(box, m))
        came = visits(X, self.tree, box, letter == b'L') if self.tree else 0
        if letter == b'L':
            return [b'L,%d,%d' % (len(found), came)] + [b'%d,%d,%d,%d' % m for m in found]
        grades = [m[3] for m in found]
        return [b'C,%d,%d,%d,%d' % (len(found), came, sum(grades), max(grades, default=0))]

    def line(self, line):
        match = LINE.fullmatch(line) if len(line) <= 48 else None
        fields = [f for f in match.groups() if f is not None] if match else []
        numbers = tuple(int(f) for f in fields[1:])
        if not match or max(numbers) > LARGEST_WORD:
            return [b'R,11']
        return self.update(fields[0], numbers[:3], *numbers[3:]) if fields[0] in b'ID' else self.search(fields[0], numbers)


def printed(data):
    """The whole output for an input: an empty rest after the last line feed is no line."""
    lines = data.split(b'\n')
    if lines[-1] == b'':
        lines.pop()
    sheet = Sheet()
    return b''.join(answer + b'\n' for line in lines for answer in sheet.line(line))
