// Neither are clocks.
// $ refused 6:3
// `clocked` isn't part of the subset
// `finish` is the one way to wait for others.
def main() {
  clocked async Console.OUT.println(1);
}
