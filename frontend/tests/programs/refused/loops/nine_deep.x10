// Loops nest 8 deep.
// $ refused 7:5
// the loops nest 9 deep
// At most 8: put the inner ones into a def.
def main() {
  for (a in 1..2) for (b in 1..2) for (c in 1..2) for (d in 1..2) for (e in 1..2) for (f in 1..2) for (g in 1..2) for (h in 1..2)
    for (i in 1..2) Console.OUT.println(1);
}
