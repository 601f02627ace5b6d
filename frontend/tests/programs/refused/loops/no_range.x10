// A loop goes over a range or the places.
// $ refused 6:13
// a loop goes over a range or over the places
// Write `1..n`, or `Place.places()`.
def main() {
  for (i in 7) Console.OUT.println(i);
}
