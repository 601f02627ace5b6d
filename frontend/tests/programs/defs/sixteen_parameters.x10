// As many parameters as there may be.
// $ run
// 0: 15
def last(a: Int, b: Int, c: Int, d: Int, e: Int, f: Int, g: Int, h: Int,
         i: Int, j: Int, k: Int, l: Int, m: Int, n: Int, o: Int, p: Int): Int = p - a;
def main() { Console.OUT.println(last(1, 2, 3, 4, 5, 6, 7, 8, 9, 10, 11, 12, 13, 14, 15, 16)); }
