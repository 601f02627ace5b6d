// A def that may fail may give null.
// $ refused 7:34
// `made(1)` may be null here
// Put it into a val and ask: `val o = made(1); if (o != null) ..`.
class Node { var n: Int; }
def made(n: Int): Node = new Node(1 / n);
def main() { Console.OUT.println(made(1).n); }
