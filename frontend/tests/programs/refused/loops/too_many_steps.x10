// The steps of a def have a bound, and it is at most 2^48.
// $ refused 5:5
// `main` could take 562932773814273 steps
// At most 2^48: give its loops smaller bounds, or put turns into activities, which have bounds of their own.
def main() {
  for (a in 1..65535) for (b in 1..65535) for (c in 1..65535) Console.OUT.println(1);
}
