// A value alone is no statement.
// $ refused 5:27
// a statement is no value
// A statement is a call, an assignment, a declaration or begins with a word.
def main() { val n = 1; n + 1; }
