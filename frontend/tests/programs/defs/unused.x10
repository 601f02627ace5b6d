// A def that nobody calls is compiled too.
// $ run
// 0: 1
class Box { var n: Int; }
def never(g: GlobalRef[Box], b: Box): Int = g().n + b.n;
def main() { Console.OUT.println(1); }
