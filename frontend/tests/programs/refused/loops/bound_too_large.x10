// The bound is at most 65535.
// $ refused 6:31
// the bound of a loop is no constant from 1 to 65535
// More turns are made by a loop in a loop.
def main() {
  while (here.id == 0) @bound(65536) Console.OUT.println(1);
}
