// A def has 16 parameters at most.
// $ refused 5:5
// `f` has 17 parameters
// A def has at most 16: put some into an object.
def f(a: Int, b: Int, c: Int, d: Int, e: Int, f: Int, g: Int, h: Int, i: Int, j: Int, k: Int, l: Int, m: Int, n: Int, o: Int, p: Int,
      q: Int) {}
def main() {}
