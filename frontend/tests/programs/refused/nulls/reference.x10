// A reference to what may be null.
// $ refused 10:32
// `made(0)` may be null here
// Put it into a val and ask: `val o = made(0); if (o != null) ..`.
class Node { var n: Int; }
def made(n: Int): Node {
  if (n == 0) return null;
  return new Node(n);
}
def main() { val g = GlobalRef(made(0)); }
