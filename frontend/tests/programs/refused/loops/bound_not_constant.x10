// The bound is a constant.
// $ refused 6:26
// the bound of a loop is no constant from 1 to 65535
// More turns are made by a loop in a loop.
def show(n: Int) {
  for (i in 1..n) @bound(n) Console.OUT.println(i);
}
def main() {}
