// So is a constant range.
// $ refused 6:13
// the loop makes 100000 turns
// At most 65535; take a loop in a loop.
def main() {
  for (i in 1..100000) {}
}
