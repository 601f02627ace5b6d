// Nothing jumps out of the body of an async.
// $ refused 6:46
// `continue` is in no loop of this `async`
// Nothing jumps out of the body of `async`.
def main() {
  finish for (i in 1..3) async { if (i == 2) continue; Console.OUT.println(i); }
}
