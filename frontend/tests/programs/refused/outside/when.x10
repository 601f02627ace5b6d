// `when` isn't part of the subset.
// $ refused 6:3
// `when` isn't part of the subset
// `finish` is the one way to wait for others.
def main() {
  when (true) Console.OUT.println(1);
}
